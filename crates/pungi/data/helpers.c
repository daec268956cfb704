/* Helpers for lists: a module as it stands in real code, cut short. */
#define PY_SSIZE_T_CLEAN
#include <Python.h>

#define ANSWER 42

PyDoc_STRVAR(same_doc, "same(x)\n--\n\n"
                       "Answers x.");

typedef struct {
    PyObject_HEAD
    PyObject *first;
    long hits;
} Cache;

static int cache_size(Cache *cache, PyObject *list);

PyObject *
same(PyObject *self, PyObject *x)
{
    Py_INCREF(x);
    return x;
}

PyObject *
answer(PyObject *self, PyObject *Py_UNUSED(ignored))
{
    return PyLong_FromLong(ANSWER);
}

PyObject *
number(PyObject *self, PyObject *args)
{
    PyObject *n;
    n = PyLong_FromLong(ANSWER);
    return n;
}

PyObject *
twice(PyObject *self, PyObject *x)
{
    PyObject *kept;
    kept = Py_NewRef(x);
    Py_INCREF(kept);
    return kept;
}

PyObject *
nothing(PyObject *self, PyObject *args)
{
    Py_RETURN_NONE;
}

PyObject *
append_one(PyObject *self, PyObject *list)
{
    if (PyList_Append(list, PyLong_FromLong(1)) < 0)
        return NULL;
    Py_RETURN_NONE;
}

static void
keep_first(Cache *cache, PyObject *x)
{
    PyObject *old = cache->first;
    Py_XINCREF(x);
    cache->first = x;
    Py_XDECREF(old);
}

static int
cache_size(Cache *cache, PyObject *list)
{
    Py_ssize_t i, size = PyList_Size(list);
    for (i = 0; i < size; i++)
        cache->hits += i % 2 ? 1 : 0;
    return size < 0 ? -1 : 0;
}

static PyMethodDef helpers_methods[] = {
    {"same", same, METH_O, same_doc},
    {"answer", answer, METH_NOARGS, NULL},
    {"number", number, METH_VARARGS, NULL},
    {"twice", twice, METH_O, NULL},
    {"append_one", append_one, METH_O, NULL},
    {NULL, NULL, 0, NULL}
};
