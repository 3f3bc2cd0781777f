/* Arguments of any count; the kit's compiler comes without this header. */
#ifndef OWN_STDARG_H
#define OWN_STDARG_H
typedef __builtin_va_list va_list;
#define va_start(list, last) __builtin_va_start(list, last)
#define va_arg(list, type) __builtin_va_arg(list, type)
#define va_end(list) __builtin_va_end(list)
#endif
