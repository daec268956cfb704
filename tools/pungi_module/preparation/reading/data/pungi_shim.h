/* Read before a module's own text: the API's calls stay calls, and what takes types or makes statements is put in the
   words that the preparation knows. */
#include <stddef.h>
#include <stdarg.h>
#include <assert.h>
#include <errno.h>
#include <Python.h>
#include <structmember.h>
#include "pungi_calls.h"

#undef assert
#define assert(x) ((void)0)
#undef errno
extern int errno;

/* The objects that Python's macros name. */
#undef Py_None
#undef Py_True
#undef Py_False
#undef Py_NotImplemented
#undef Py_Ellipsis
extern PyObject *Py_None, *Py_True, *Py_False, *Py_NotImplemented, *Py_Ellipsis;
#undef Py_RETURN_NONE
#undef Py_RETURN_TRUE
#undef Py_RETURN_FALSE
#undef Py_RETURN_NOTIMPLEMENTED
#define Py_RETURN_NONE return Py_NewRef(Py_None)
#define Py_RETURN_TRUE return Py_NewRef(Py_True)
#define Py_RETURN_FALSE return Py_NewRef(Py_False)
#define Py_RETURN_NOTIMPLEMENTED return Py_NewRef(Py_NotImplemented)

/* The thread state has no part in counts. */
#undef Py_BEGIN_ALLOW_THREADS
#undef Py_END_ALLOW_THREADS
#undef Py_BLOCK_THREADS
#undef Py_UNBLOCK_THREADS
#define Py_BEGIN_ALLOW_THREADS {
#define Py_END_ALLOW_THREADS }
#define Py_BLOCK_THREADS
#define Py_UNBLOCK_THREADS
#undef Py_TRASHCAN_BEGIN
#undef Py_TRASHCAN_END
#undef Py_TRASHCAN_SAFE_BEGIN
#undef Py_TRASHCAN_SAFE_END
#define Py_TRASHCAN_BEGIN(object, deallocator)
#define Py_TRASHCAN_END
#define Py_TRASHCAN_SAFE_BEGIN(object)
#define Py_TRASHCAN_SAFE_END(object)

/* Allocation: the type is an argument. */
#undef PyObject_New
#undef PyObject_GC_New
#undef PyObject_NewVar
#undef PyObject_GC_NewVar
#undef PyObject_GC_Resize
#define PyObject_New(T, type) ((T *)pungi_New((T *)0, (type)))
#define PyObject_GC_New(T, type) ((T *)pungi_New((T *)0, (type)))
#define PyObject_NewVar(T, type, n) ((T *)pungi_New((T *)0, (type), (n)))
#define PyObject_GC_NewVar(T, type, n) ((T *)pungi_New((T *)0, (type), (n)))
#define PyObject_GC_Resize(T, object, n) ((T *)pungi_GC_Resize((object), (n)))
#undef PyMem_New
#undef PyMem_Resize
#undef PyMem_RESIZE
#define PyMem_New(T, n) ((T *)PyMem_Malloc((n) * sizeof(T)))
#define PyMem_Resize(p, T, n) ((p) = (T *)PyMem_Realloc((p), (n) * sizeof(T)))
#define PyMem_RESIZE(p, T, n) ((p) = (T *)PyMem_Realloc((p), (n) * sizeof(T)))

/* What makes statements or asks the compiler. */
#undef Py_UNUSED
#define Py_UNUSED(name) name
#undef Py_VISIT
#define Py_VISIT(op) do { if (op) { if (pungi_visit((PyObject *)(op))) return 1; } } while (0)
#undef Py_UNREACHABLE
#define Py_UNREACHABLE() pungi_stop()
#undef Py_ARRAY_LENGTH
#define Py_ARRAY_LENGTH(array) (sizeof(array) / sizeof((array)[0]))
#undef Py_BUILD_ASSERT
#undef Py_BUILD_ASSERT_EXPR
#define Py_BUILD_ASSERT(x) ((void)0)
#define Py_BUILD_ASSERT_EXPR(x) 0
#undef va_arg
#undef va_start
#undef va_end
#undef va_copy
#define va_arg(list, T) (*(T *)pungi_va_arg(list))
#define va_start(list, last) ((void)0)
#define va_end(list) ((void)0)
#define va_copy(to, from) ((void)0)
