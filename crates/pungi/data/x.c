PyObject *f(PyObject *self, PyObject *args) { return PyLong_FromLong(1); }
