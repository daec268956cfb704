/* Runs functions that stand in functions.c, with the calls of the API that they make in hand. Each call asks next() how it goes: by
   a plan, in which 1 is a failure, or by the answers of a run that is given. A call that goes on is Python's own, and so is one that
   answers a status and fails: a list is given an index that it doesn't have, a call on a module something that is none. One that
   fails to answer an object or a truth is not made, nor is one whose given answer is an object that is there, a borrowed one, or a
   truth. A call that answers a number isn't made where its answer is given, and fails with -1. An overflow stops a run, and so do
   too many turns of loops, calls or objects. Each object has many references more, so that one too few is seen and not met. */
#define PY_SSIZE_T_CLEAN
#include <Python.h>
#include <setjmp.h>
#include <stdarg.h>
#include <string.h>
#include <signal.h>
#define MORE 1000
#define MANY 512
#define TURNS 200

typedef struct { PyObject_HEAD PyObject *first; long size; } Box;
static PyObject *kept;
static int mode;
static PyTypeObject BoxType = { PyVarObject_HEAD_INIT(NULL, 0) .tp_name = "Box", .tp_basicsize = sizeof(Box), .tp_new = PyType_GenericNew };

typedef struct { PyObject *it; Py_ssize_t wanted; long number; } Seen;
static Seen seen[MANY];
static int count_seen;
static sigjmp_buf stopped;
static long answers[MANY], numbers[MANY], number_given;
static int count_answers, used, replays, strayed, turns;

enum { NOTHING = -1, NUMBER = -2, TEXT = -3, GIVEN = -4, FAILED = -5 };

static PyObject *numbered(long number) {
    for (int i = 0; i < count_seen; i++) if (seen[i].number == number) return seen[i].it;
    return NULL;
}

static void stray(void) { strayed = 1; siglongjmp(stopped, 1); }
static void stop(void) { siglongjmp(stopped, 1); }
static void overflow(int number) { siglongjmp(stopped, number); }

static PyObject *see(PyObject *it, long number, int owned) {
    if (!it) return NULL;
    for (int i = 0; i < count_seen; i++) if (seen[i].it == it) {
        if (seen[i].number == NOTHING) seen[i].number = number;
        return it;
    }
    if (count_seen == MANY) stop();
    Seen *s = &seen[count_seen++];
    s->it = it;
    s->number = number;
    s->wanted = Py_REFCNT(it) - owned + MORE;
    for (int i = 0; i < MORE; i++) Py_INCREF(it);
    return it;
}

static int turn(void) {
    if (++turns > TURNS) stop();
    return 1;
}

static long next(void) {
    if (used == MANY) stop();
    if (replays && used >= count_answers) stray();
    number_given = used < count_answers ? numbers[used] : 0;
    return used < count_answers ? answers[used++] : (used++, 0);
}

static PyObject *some(void *it) { if (!it) stop(); return it; }

static PyObject *failed(void) { PyErr_NoMemory(); return NULL; }

/* A new reference: CALL, or NULL, or one more to an object that is there. */
#define NEW(CALL) \
    long a = next(); \
    if (!replays) return a ? failed() : see(CALL, NOTHING, 1); \
    if (a == NOTHING) return failed(); \
    if (a < 0) stray(); \
    if (numbered(a)) return Py_NewRef(numbered(a)); \
    PyObject *made = CALL; \
    see(made, a, 1); \
    if (!made || numbered(a) != made) stray(); \
    return made;

#define BORROWED(CALL) \
    long a = next(); \
    if (!replays) return a ? NULL : see(CALL, NOTHING, 0); \
    if (a == NOTHING) return NULL; \
    if (a < 0) stray(); \
    if (!numbered(a)) { PyObject *other = PyLong_FromLong(2000003); see(other, a, 1); Py_DECREF(other); } \
    return numbered(a);

#define STATUS(GOES, FAILS) \
    long a = next(); \
    if (!replays) return a ? (FAILS) : (GOES); \
    if (a == NUMBER && number_given == 0) { int r = (GOES); if (r) stray(); return r; } \
    if (a == NUMBER && number_given == -1) { int r = (FAILS); if (r != -1) stray(); return r; } \
    stray(); \
    return 0;

/* A tuple of many references can't be changed: the call is made on one of its own, which then goes. */
static int in_tuple(PyObject *y) {
    PyObject *tuple = PyTuple_New(1);
    int r = PyTuple_SetItem(tuple, 0, y);
    Py_DecRef(tuple);
    return r;
}

static PyObject *my_PyLong_FromLong(long n) { NEW(PyLong_FromLong(n)) }
static PyObject *my_PyUnicode_FromString(const char *t) { NEW(PyUnicode_FromString(t)) }
static PyObject *my_PyBytes_FromString(const char *t) { NEW(PyBytes_FromString(t)) }
static PyObject *my_PyList_New(Py_ssize_t n) { NEW(PyList_New(n)) }
static PyObject *my_PyDict_New(void) { NEW(PyDict_New()) }
static PyObject *my_PyObject_Str(PyObject *x) { some(x); NEW(PyObject_Str(x)) }
static PyObject *my_PyObject_Repr(PyObject *x) { some(x); NEW(PyObject_Repr(x)) }
static PyObject *my_PyDict_Keys(PyObject *x) { some(x); NEW(PyDict_Keys(x)) }
static PyObject *my_PyDict_Values(PyObject *x) { some(x); NEW(PyDict_Values(x)) }
static PyObject *my_PySequence_GetItem(PyObject *x, Py_ssize_t n) { some(x); NEW(PySequence_GetItem(x, n)) }
static PyObject *my_PyObject_GetItem(PyObject *x, PyObject *y) { some(x), some(y); NEW(PyObject_GetItem(x, y)) }
static PyObject *my_PyObject_GetAttrString(PyObject *x, const char *t) { some(x); NEW(PyObject_GetAttrString(x, t)) }
static PyObject *my_PySequence_Fast(PyObject *x, const char *t) { some(x); NEW(PySequence_Fast(x, t)) }
static PyObject *my_PyNumber_Add(PyObject *x, PyObject *y) { some(x), some(y); NEW(PyNumber_Add(x, y)) }
static PyObject *my_PyNumber_Subtract(PyObject *x, PyObject *y) { some(x), some(y); NEW(PyNumber_Subtract(x, y)) }
static PyObject *my_PyNumber_Multiply(PyObject *x, PyObject *y) { some(x), some(y); NEW(PyNumber_Multiply(x, y)) }
static PyObject *my_PyDict_Items(PyObject *x) { some(x); NEW(PyDict_Items(x)) }
static PyObject *my_PyTuple_New(Py_ssize_t n) { NEW(PyTuple_New(n)) }

/* These two never fail, so no plan speaks of them. */
#define BORROWED_SURE(CALL) \
    if (!replays) return see(CALL, NOTHING, 0); \
    BORROWED(CALL)

static PyObject *my_PyModule_GetDict(PyObject *x) { some(x); BORROWED_SURE(PyModule_GetDict(x)) }
static PyObject *my_PyList_GET_ITEM(PyObject *x, Py_ssize_t n) { some(x); BORROWED_SURE(PyList_GET_ITEM(x, n)) }
static PyObject *my_PyList_GetItem(PyObject *x, Py_ssize_t n) { some(x); BORROWED(PyList_GetItem(x, n)) }
static PyObject *my_PyDict_GetItem(PyObject *x, PyObject *y) { some(x), some(y); BORROWED(PyDict_GetItem(x, y)) }
static PyObject *my_PyDict_GetItemWithError(PyObject *x, PyObject *y) { some(x), some(y); BORROWED(PyDict_GetItemWithError(x, y)) }
static PyObject *my_PyDict_GetItemString(PyObject *x, const char *t) { some(x); BORROWED(PyDict_GetItemString(x, t)) }
static int my_PyList_Append(PyObject *x, PyObject *y) { some(x), some(y); STATUS(PyList_Append(x, y), PyList_Append(Py_None, y)) }
static int my_PyList_Insert(PyObject *x, Py_ssize_t n, PyObject *y) { some(x), some(y); STATUS(PyList_Insert(x, n, y), PyList_Insert(Py_None, n, y)) }
static int my_PyList_SetItem(PyObject *x, Py_ssize_t n, PyObject *y) { some(x), some(y); STATUS(PyList_SetItem(x, n, y), PyList_SetItem(x, 100000, y)) }
static int my_PyTuple_SetItem(PyObject *x, Py_ssize_t n, PyObject *y) { some(x), some(y); STATUS(in_tuple(y), PyTuple_SetItem(x, 100000, y)) }
static int my_PySequence_SetItem(PyObject *x, Py_ssize_t n, PyObject *y) { some(x), some(y); STATUS(PySequence_SetItem(x, n, y), PySequence_SetItem(Py_None, n, y)) }
static int my_PyDict_SetItem(PyObject *x, PyObject *y, PyObject *z) { some(x), some(y), some(z); STATUS(PyDict_SetItem(x, y, z), PyDict_SetItem(Py_None, y, z)) }
static int my_PyDict_DelItem(PyObject *x, PyObject *y) { some(x), some(y); STATUS(PyDict_DelItem(x, y), PyDict_DelItem(Py_None, y)) }
static int my_PyObject_SetItem(PyObject *x, PyObject *y, PyObject *z) { some(x), some(y), some(z); STATUS(PyObject_SetItem(x, y, z), PyObject_SetItem(Py_None, y, z)) }
static int my_PyDict_SetItemString(PyObject *x, const char *t, PyObject *y) { some(x), some(y); STATUS(PyDict_SetItemString(x, t, y), PyDict_SetItemString(Py_None, t, y)) }
static int my_PyObject_SetAttrString(PyObject *x, const char *t, PyObject *y) { some(x), some(y); STATUS(PyObject_SetAttrString(x, t, y), PyObject_SetAttrString(Py_None, t, y)) }
static int my_PyModule_AddObject(PyObject *x, const char *t, PyObject *y) { some(x), some(y); STATUS(PyModule_AddObject(x, t, y), PyModule_AddObject(Py_None, t, y)) }
static int my_PyModule_AddObjectRef(PyObject *x, const char *t, PyObject *y) { some(x), some(y); STATUS(PyModule_AddObjectRef(x, t, y), PyModule_AddObjectRef(Py_None, t, y)) }
static int my_PyModule_AddIntConstant(PyObject *x, const char *t, long n) { some(x); STATUS(PyModule_AddIntConstant(x, t, n), PyModule_AddIntConstant(Py_None, t, n)) }

static PyObject *my_PyTuple_Pack(Py_ssize_t n, ...) {
    PyObject *given[3] = {NULL};
    va_list list;
    va_start(list, n);
    for (Py_ssize_t i = 0; i < n; i++) given[i] = some(va_arg(list, PyObject *));
    va_end(list);
    NEW(PyTuple_Pack(n, given[0], given[1], given[2]))
}

static PyObject *my_PyObject_CallFunctionObjArgs(void *called, ...) {
    PyObject *given[3] = {NULL}, *it = NULL;
    va_list list;
    va_start(list, called);
    for (int i = 0; i < 2 && (it = va_arg(list, PyObject *)); i++) given[i] = it;
    va_end(list);
    some(called);
    NEW(PyObject_CallFunctionObjArgs(called, given[0], given[1], NULL))
}

static PyObject *my_PyErr_Format(PyObject *exception, const char *format, ...) {
    va_list list;
    va_start(list, format);
    PyErr_FormatV(some(exception), format, list);
    va_end(list);
    return NULL;
}

/* A unit of a format that a value is built by has an object that is NULL. */
static int has_null(const char *format, va_list list) {
    int found = 0;
    for (; *format; format++) switch (*format) {
        case 'O': case 'S': case 'N': found |= !va_arg(list, PyObject *); break;
        case 'i': va_arg(list, int); break;
        case 'l': va_arg(list, long); break;
        case 'n': va_arg(list, Py_ssize_t); break;
        case 's': case 'z': va_arg(list, const char *); break;
    }
    return found;
}

/* A value that is built and given back at once: what `N` puts into it is gone. */
static PyObject *built_in_vain(PyObject *made) { Py_DecRef(made); return failed(); }

static PyObject *built(const char *format, va_list list) {
    PyObject *made = Py_VaBuildValue(format, list);
    if (!made) stray();
    return made;
}

static PyObject *my_Py_BuildValue(const char *format, ...) {
    va_list list, looked_at;
    va_start(list, format);
    va_copy(looked_at, list);
    if (has_null(format, looked_at)) return Py_VaBuildValue(format, list);
    long a = next();
    PyObject *made = built(format, list);
    if (!replays) return a ? built_in_vain(made) : see(made, NOTHING, 1);
    if (a == NOTHING) return built_in_vain(made);
    if (a < 0) stray();
    if (numbered(a)) { PyObject *there = Py_NewRef(numbered(a)); Py_DecRef(made); return there; }
    see(made, a, 1);
    if (numbered(a) != made) stray();
    return made;
}

/* The units of a format that takes a tuple apart, each by its letter, that of `O!` being T; how many there are; and how many are
   required. */
static int units_of(const char *format, char *units, int *required) {
    int count = 0;
    *required = -1;
    for (; *format && *format != ':' && *format != ';'; format++) {
        if (*format == '|') *required = count;
        else if (*format == '!') units[count - 1] = 'T';
        else units[count++] = *format;
    }
    if (*required < 0) *required = count;
    return count;
}

static int is_object_unit(char unit) { return strchr("OTSU", unit) != NULL; }

/* An object that a unit takes: the one of this number, or another one. */
static PyObject *object_for(char unit, long number) {
    PyObject *there = number < 0 ? NULL : numbered(number);
    if (there) return Py_NewRef(there);
    PyObject *made = unit == 'T' ? PyList_New(0) : unit == 'S' ? PyBytes_FromString("some bytes") : unit == 'U' ? PyUnicode_FromString("some text")
        : PyLong_FromLong(2000003);
    return see(made, number, 1);
}

/* What stands in the tuple for a unit that is converted. */
static PyObject *element_for(char unit) {
    if (!replays) return is_object_unit(unit) ? object_for(unit, NOTHING) : strchr("sz", unit) ? PyUnicode_FromString("a text") : PyLong_FromLong(3);
    long a = next();
    if (is_object_unit(unit)) { if (a < 0) stray(); return object_for(unit, a); }
    if (strchr("sz", unit)) return a == NOTHING ? Py_NewRef(Py_None) : PyUnicode_FromString("a text");
    if (a != NUMBER) stray();
    return PyLong_FromLong(number_given);
}

/* What no unit but `O` and `p` takes. */
static PyObject *wrong_for(char unit) {
    if (strchr("Op", unit)) stray();
    return strchr("iln", unit) ? PyUnicode_FromString("no number") : PyLong_FromLong(4);
}

/* How the next parser ends, over these units: it gives so many, or has given so many where it fails. */
static long ending(const char *units, int required, int count, int *fails) {
    long a = next();
    if (replays) {
        if (a != GIVEN && a != FAILED) stray();
        *fails = a == FAILED;
        return number_given;
    }
    *fails = a != 0;
    if (*fails) {
        for (int i = 1; i < count; i++) if (!strchr("Op", units[i]) && next()) return i;
        return 0;
    }
    for (int i = required; i < count; i++) if (next()) return i;
    return count;
}

/* The tuple over which a parser ends so: one that fails at its start is given too many. */
static PyObject *tuple_for(const char *units, int required, int count, long given, int fails) {
    Py_ssize_t size = !fails ? given : given == 0 ? count + 1 : given + 1 > required ? given + 1 : required;
    PyObject *tuple = PyTuple_New(size);
    for (Py_ssize_t i = 0; i < size; i++)
        PyTuple_SET_ITEM(tuple, i, i < given ? element_for(units[i]) : i == given && given ? wrong_for(units[i]) : Py_NewRef(Py_None));
    return tuple;
}

static int my_PyArg_ParseTuple(PyObject *tuple, const char *format, ...) {
    char units[16];
    int required, fails, count = units_of(format, units, &required);
    some(tuple);
    long given = ending(units, required, count, &fails);
    PyObject *made = tuple_for(units, required, count, given, fails);
    va_list list;
    va_start(list, format);
    int result = PyArg_VaParse(made, format, list);
    if (result != !fails) stray();
    Py_DecRef(made);
    return result;
}

static int my_PyArg_UnpackTuple(PyObject *tuple, const char *name, Py_ssize_t least, Py_ssize_t most, ...) {
    PyObject **to[3] = {NULL};
    va_list list;
    int fails;
    va_start(list, most);
    for (Py_ssize_t i = 0; i < most; i++) to[i] = va_arg(list, PyObject **);
    some(tuple);
    long given = ending("OOO", (int)least, (int)most, &fails);
    if (fails && given) stray();
    PyObject *made = tuple_for("OOO", (int)least, (int)most, given, fails);
    int result = PyArg_UnpackTuple(made, name, least, most, to[0], to[1], to[2]);
    if (result != !fails) stray();
    Py_DecRef(made);
    return result;
}

/* (A key is a text that the interpreter's own tables hold too, so another object is given for it.) */
static int my_PyDict_Next(PyObject *dict, Py_ssize_t *position, PyObject **key, PyObject **value) {
    some(dict);
    long a = next();
    if (!replays) {
        PyObject *of[2];
        if (a || !PyDict_Next(dict, position, &of[0], &of[1])) return 0;
        if (key) { *key = object_for('O', NOTHING); Py_DecRef(*key); }
        if (value) *value = see(of[1], NOTHING, 0);
        return 1;
    }
    if (a != NUMBER) stray();
    if (number_given == 0) return 0;
    if (next() != NUMBER) stray();
    *position = number_given;
    for (int i = 0; i < 2; i++) {
        PyObject **to = i ? value : key;
        if (!to) continue;
        long number = next();
        if (number < 0) stray();
        *to = object_for('O', number);
        Py_DecRef(*to);
    }
    return 1;
}

#define TRUTH(CALL) \
    long a = next(); \
    if (!replays) return a ? -1 : (CALL); \
    if (a != NUMBER || number_given < -1 || number_given > 1) stray(); \
    return (int)number_given;

#define COUNT(CALL) \
    long a = next(); \
    if (!replays) return a ? -1 : (CALL); \
    if (a != NUMBER) stray(); \
    return number_given;

static Py_ssize_t my_PyObject_Size(PyObject *x) { some(x); COUNT(PyObject_Size(x)) }
static Py_ssize_t my_PySequence_Size(PyObject *x) { some(x); COUNT(PySequence_Size(x)) }
static long my_PyLong_AsLong(PyObject *x) { some(x); COUNT(PyLong_AsLong(x)) }

static int my_PyObject_IsTrue(PyObject *x) { some(x); TRUTH(PyObject_IsTrue(x)) }
static int my_PyObject_RichCompareBool(PyObject *x, PyObject *y, int by) { some(x), some(y); TRUTH(PyObject_RichCompareBool(x, y, by)) }
static void my_PyList_SET_ITEM(PyObject *x, Py_ssize_t n, PyObject *y) { some(x), some(y); PyList_SET_ITEM(x, n, y); }
static void my_PyTuple_SET_ITEM(PyObject *x, Py_ssize_t n, PyObject *y) { some(x), some(y); PyTuple_SET_ITEM(x, n, y); }
/* An object that is made is none that is there. (Its fields hold nothing; what is read before it is written isn't seen here.) */
static Box *my_new_Box(void *type) {
    some(type);
    long a = next();
    if (!replays ? a : a == NOTHING) return (Box *)failed();
    if (replays && (a < 0 || numbered(a))) stray();
    Box *made = PyObject_New(Box, &BoxType);
    made->first = NULL, made->size = 0;
    return (Box *)see((PyObject *)made, replays ? a : NOTHING, 1);
}

static void my_Py_INCREF(void *x) { Py_INCREF(some(x)); }
static void my_Py_DECREF(void *x) { Py_DECREF(some(x)); }
static PyObject *my_Py_NewRef(void *x) { return Py_NewRef(some(x)); }

#undef Py_INCREF
#undef Py_DECREF
#undef Py_NewRef
#undef Py_XINCREF
#undef Py_XDECREF
#undef Py_CLEAR
#undef Py_XNewRef
#undef Py_RETURN_NONE
#include "renamed.h"
#define Py_INCREF my_Py_INCREF
#define Py_DECREF my_Py_DECREF
#define Py_NewRef my_Py_NewRef
#define Py_XINCREF(X) Py_IncRef((PyObject *)(X))
#define Py_XDECREF(X) Py_DecRef((PyObject *)(X))
static PyObject *my_Py_XNewRef(void *x) { Py_IncRef(x); return x; }
#define Py_XNewRef my_Py_XNewRef
#define Py_CLEAR(X) do { PyObject *held = (PyObject *)(X); (X) = NULL; Py_DecRef(held); } while (0)
#define Py_RETURN_NONE return Py_NewRef(Py_None)
#undef Py_BuildValue
#define Py_BuildValue my_Py_BuildValue
#undef PyObject_New
#define PyObject_New(T, TYPE) my_new_Box(TYPE)
/* Each test of a while or do, and each turn of a for, is a turn. */
#define while(...) while (turn() && (__VA_ARGS__))
#define for(...) for (__VA_ARGS__) if (!turn()) { } else
#include "functions.c"
#undef while
#undef for
typedef PyObject *Function(Box *, PyObject *, PyObject *, PyObject *, PyObject *, PyObject *, int, long);
static Function *const functions[] = {
#include "names.h"
};
#include "original.h"
#undef Py_BuildValue
#define Py_BuildValue _Py_BuildValue_SizeT
#undef PyObject_New
#define PyObject_New(T, TYPE) ((T *)_PyObject_New(TYPE))
#define PyArg_ParseTuple _PyArg_ParseTuple_SizeT

static PyObject *argument(int place) {
    if (place == 0) return (PyObject *)PyObject_New(Box, &BoxType);
    if (place == 1) {
        PyObject *list = PyList_New(0);
        for (int i = 0; i < 3; i++) {
            PyObject *it = PyLong_FromLong(3000017 + i);
            see(it, NOTHING, 1);
            PyList_Append(list, it);
            Py_DecRef(it);
        }
        return list;
    }
    if (place == 2) {
        PyObject *dict = PyDict_New(), *it = PyLong_FromLong(4000037);
        see(it, NOTHING, 1);
        PyDict_SetItemString(dict, "there", it);
        Py_DecRef(it);
        return dict;
    }
    if (place == 3) {
        PyObject *module = PyModule_New("module"), *it = PyLong_FromLong(6000011);
        see(it, NOTHING, 1);
        PyModule_AddObjectRef(module, "there", it);
        Py_DecRef(it);
        return module;
    }
    return PyLong_FromLong(5000011 + place);
}

/* What the field or the global holds before the run: the object of this number, or nothing. */
static void hold(PyObject **place, long number) {
    *place = NULL;
    if (number < 0) return;
    PyObject *it = numbered(number) ? Py_NewRef(numbered(number)) : PyLong_FromLong(8000009);
    see(it, number, 1);
    *place = it;
}

static void emptied(PyObject *it) {
    if (Py_IS_TYPE(it, &BoxType)) Py_CLEAR(((Box *)it)->first);
    else if (PyList_CheckExact(it)) PyList_SetSlice(it, 0, PyList_GET_SIZE(it), NULL);
    else if (PyDict_CheckExact(it)) PyDict_Clear(it);
    else if (PyTuple_CheckExact(it)) for (Py_ssize_t i = 0; i < PyTuple_GET_SIZE(it); i++) Py_CLEAR(((PyTupleObject *)it)->ob_item[i]);
    else if (PyModule_CheckExact(it)) PyDict_Clear(PyModule_GetDict(it));
}

/* run(function, is by answers, arguments by number or -1, the two numbers, contents of the fields and the globals, answers, their
   numbers): how many answers were used, and how far the count of each object is off, by its number, or None where the run stopped; None alone where it isn't the run of the
   answers. */
static PyObject *run(PyObject *self, PyObject *args) {
    int which, by, n, mode_held;
    long k, held, size_held, global;
    PyObject *given, *told, *counts, *six[6];
    if (!PyArg_ParseTuple(args, "iiO!illlliO!O!", &which, &by, &PyList_Type, &given, &n, &k, &held, &size_held, &global, &mode_held,
                          &PyList_Type, &told, &PyList_Type, &counts)) return NULL;
    count_seen = 0, used = 0, strayed = 0, turns = 0, replays = by;
    see(Py_None, 0, 0), see(Py_True, 1, 0), see(Py_False, 2, 0);
#ifdef MADE
    see((PyObject *)&BoxType, 24, 0);
#endif
    int statics = count_seen;
    for (int i = 0; i < 6; i++) {
        long number = PyLong_AsLong(PyList_GetItem(given, i));
        six[i] = number < 0 ? NULL : numbered(number);
        if (number >= 0 && !six[i]) { six[i] = argument(i); see(six[i], number, 0); }
    }
    if (six[0]) { hold(&((Box *)six[0])->first, held); ((Box *)six[0])->size = size_held; }
    hold(&kept, global);
    mode = mode_held;
    if (six[2] && six[4] && PyDict_CheckExact(six[2])) {
        PyObject *it = PyLong_FromLong(7000003);
        see(it, NOTHING, 1);
        PyDict_SetItem(six[2], six[4], it);
        PyErr_Clear();
        Py_DecRef(it);
    }
    count_answers = (int)PyList_GET_SIZE(told);
    if (count_answers > MANY) count_answers = MANY;
    for (int i = 0; i < count_answers; i++) {
        answers[i] = PyLong_AsLong(PyList_GetItem(told, i));
        numbers[i] = i < PyList_GET_SIZE(counts) ? PyLong_AsLong(PyList_GetItem(counts, i)) : 0;
    }
    int has_stopped = sigsetjmp(stopped, 1);
    if (!has_stopped) {
        PyObject *result = functions[which]((Box *)six[0], six[1], six[2], six[3], six[4], six[5], n, k);
        Py_DecRef(result);
    }
    PyErr_Clear();
    for (int i = 0; i < count_seen; i++) emptied(seen[i].it);
    Py_CLEAR(kept);
    Py_ssize_t off[MANY];
    for (int i = 0; i < count_seen; i++) off[i] = Py_REFCNT(seen[i].it) - seen[i].wanted;
    if (strayed) { Py_IncRef(Py_None); return Py_None; }
    if (has_stopped) return Py_BuildValue("iO", used, Py_None);
    PyObject *list = PyList_New(0);
    /* (the interpreter's own tables hold None and change now and then) */
    for (int i = by ? 0 : statics; i < count_seen; i++) if (off[i]) {
        PyObject *pair = Py_BuildValue("ln", seen[i].number, off[i]);
        PyList_Append(list, pair);
        Py_DecRef(pair);
    }
    return Py_BuildValue("iN", used, list);
}

static PyMethodDef methods[] = { { "run", run, METH_VARARGS, NULL }, { NULL, NULL, 0, NULL } };
static struct PyModuleDef definition = { PyModuleDef_HEAD_INIT, "verdict_runs", NULL, -1, methods, NULL, NULL, NULL, NULL };
PyMODINIT_FUNC PyInit_verdict_runs(void) {
    signal(SIGILL, overflow), signal(SIGTRAP, overflow), signal(SIGFPE, overflow);
    return PyType_Ready(&BoxType) < 0 ? NULL : PyModule_Create(&definition);
}
