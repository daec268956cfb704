"""Structs, elements and other memory: each construct, original and prepared, run in this Python."""

from __future__ import annotations

import importlib.util
import unittest

from preparation_runs import PreparationCase, assumed, body
from running import Array, Instance
from with_program import ProgramCase

from pungi_module.findings import Word

PAIR = "typedef struct { long n; PyObject *o; } Pair; "


class Structs(PreparationCase):
    """Fields of structs in structs, and structs as a whole."""

    def test_struct_within_a_struct(self) -> None:
        source = """typedef struct { PyObject_HEAD struct { PyObject *item; } in; } Box;
            PyObject *f(Box *self) { PyObject *r = Py_NewRef(self->in.item); Py_CLEAR(self->in.item); return r; }"""
        self.assertIn("f_in__item", body(self.assert_runs(source, "f", [Instance((list,))]), "f"))

    def test_first_member_is_the_struct_itself(self) -> None:
        source = """typedef struct { PyObject_HEAD PyObject *item; } Base; typedef struct { Base base; } Box;
            PyObject *f(Box *self) { Py_CLEAR(self->base.item); return Py_XNewRef(((Base *)self)->item); }"""
        self.assert_runs(source, "f", [Instance((list,))])

    def test_state_of_a_module(self) -> None:
        source = """typedef struct { PyObject *item; } State;
            PyObject *f(PyObject *m) { State *s = (State *)PyModule_GetState(m); if (!s) return NULL;
                if (s->item == NULL) Py_RETURN_NONE; return Py_NewRef(s->item); }"""
        self.assert_runs(source, "f", [module_with_state])
        self.assert_runs(source, "f", [list])

    def test_initialiser_of_a_module(self) -> None:
        source = """typedef struct { PyObject *item; } State; static int f(PyObject *m) {
                State *s = (State *)PyModule_GetState(m); s->item = Py_NewRef(Py_True); return 0; }
            static PyModuleDef_Slot slots[] = { {Py_mod_exec, f}, {0, NULL} };"""
        found = self.assert_runs(source, "f", [module_with_state], "int")
        self.assertIn("init runs once", assumed(found, "f"))

    def test_copies(self) -> None:
        whole = PAIR + """PyObject *f(PyObject *a) { Pair p, q; p.n = 1; p.o = Py_NewRef(a); q = p; p.o = NULL;
            if (q.n == 2) return NULL; return q.o; }"""
        called = PAIR + """static Pair made(PyObject *a) { Pair p = {1, a}; return p; }
            PyObject *f(PyObject *a) { Pair p, q; p = made(a); q = p; return q.n ? Py_NewRef(a) : NULL; }"""
        unset = PAIR + """PyObject *f(PyObject *a) { Pair p, q; p.o = a; q = p; q.n = 1;
            if (q.n) return Py_NewRef(q.o); Py_RETURN_NONE; }"""
        nested = PAIR + """typedef struct { Pair in; int k; } Outer;
            PyObject *f(PyObject *a) { Outer p; p.in.o = Py_NewRef(a); p.k = 3;
                Outer q = p; Pair r = q.in; if (q.k != 3) return NULL; return r.o; }"""
        for source in (whole, called, unset, nested):
            with self.subTest(source):
                self.assert_runs(source, "f", [list])

    def test_copy_into_a_field(self) -> None:
        source = """typedef struct { PyObject_HEAD struct { PyObject *item; } in; } Box;
            PyObject *f(Box *self, Box *other) { PyObject *old = self->in.item; self->in = other->in;
                Py_XINCREF(self->in.item); Py_XDECREF(old); Py_RETURN_NONE; }"""
        self.assert_runs(source, "f", [Instance((list,)), Instance((list,))])

    def test_struct_passed_by_address(self) -> None:
        source = PAIR + """void fill(Pair *p, PyObject *a); PyObject *f(PyObject *a) { Pair p; fill(&p, a);
            if (!p.o) Py_RETURN_NONE; Py_INCREF(p.o); Py_DECREF(p.o); return Py_NewRef(a); }"""
        found = self.assert_runs(source, "f", [list], elsewhere="void fill(Pair *p, PyObject *a) { p->o = a; }")
        self.assertIn("struct passed by address", assumed(found, "f"))

    def test_store_through_the_address_of_a_field(self) -> None:
        source = """typedef struct { PyObject_HEAD PyObject *item; } Box; PyObject *f(Box *self, PyObject *a) {
            PyObject **p = &self->item; *p = a; Py_RETURN_NONE; }"""
        found = self.assert_runs(source, "f", [Instance((None,)), list])
        self.assertIn("address of a slot", assumed(found, "f"))


class Elements(PreparationCase):
    """Elements whose index is no constant."""

    SOURCE = """
        PyObject *seen(PyObject *const *args, Py_ssize_t n) {
            PyObject *x = args[n - 1]; Py_INCREF(x); Py_DECREF(x); Py_RETURN_NONE; }
        PyObject *counted(PyObject **args, Py_ssize_t n) {
            Py_INCREF(args[n - 1]); Py_DECREF(args[n - 1]); Py_RETURN_NONE; }
        PyObject *stored(PyObject **args, Py_ssize_t n, PyObject *a) { args[n - 1] = Py_NewRef(a); Py_RETURN_NONE; }
        PyObject *moved(PyObject **args, Py_ssize_t n, PyObject *a) { PyObject *x; args[n - 1] = Py_NewRef(a);
            x = args[n - 1]; args[n - 1] = NULL; Py_DECREF(x); Py_RETURN_NONE; }
    """

    def test_elements(self) -> None:
        two, room = Array((list, list)), Array((None,))
        for name, arguments, assumption in (
            ("seen", [two, 2], "element"), ("counted", [two, 2], "count of an element"),
            ("stored", [room, 1, list], "stored in an array"), ("moved", [room, 1, list], "element moved out"),
        ):
            with self.subTest(name):
                found = self.assert_runs(self.SOURCE, name, arguments)
                self.assertIn(assumption, assumed(found, name))


class OtherMemory(PreparationCase):
    """Memory that is not kept."""

    def test_struct_without_a_count(self) -> None:
        source = """typedef struct { PyObject *item; } Node; PyObject *f(void *p) { Node *n = (Node *)p;
            if (n == NULL) return NULL; Py_INCREF(n->item); Py_DECREF(n->item); Py_RETURN_NONE; }"""
        for given in (Array((list,)), None):
            found = self.assert_runs(source, "f", [given])
        self.assertIn("pointer to a struct", assumed(found, "f"))

    NODE = "typedef struct Node { PyObject *key; struct Node *next; } Node; "

    def test_struct_that_is_made_and_freed(self) -> None:
        made = self.NODE + """PyObject *f(PyObject *a) { Node *n = PyMem_Malloc(sizeof(Node)); if (!n) return NULL;
            n->key = Py_NewRef(a); n->next = NULL; %s PyMem_Free(n); Py_RETURN_NONE; }"""
        for released in ("Py_DECREF(n->key);", "Py_CLEAR(n->key);", ""):
            with self.subTest(released):
                found = self.assert_runs(made % released, "f", [list])
                self.assertLessEqual({"new object", "end of an object"}, assumed(found, "f"))

    def test_field_that_is_given_up(self) -> None:
        source = self.NODE + "void f(Node *n) { Py_XDECREF(n->key); }"
        found = self.assert_runs(source, "f", [Array((list,))], "void")
        self.assertIn("field given up", assumed(found, "f"))

    def test_base_of_a_static_type(self) -> None:
        source = """static PyTypeObject Box_Type = { PyVarObject_HEAD_INIT(NULL, 0) "Box" };
            int f(PyTypeObject *a) { Box_Type.tp_base = a; return 0; }"""
        self.assertNotIn("stored in an array", assumed(self.assert_runs(source, "f", [lambda: int], "int"), "f"))

    def test_union(self) -> None:
        source = """typedef struct { PyObject_HEAD union { long n; PyObject *o; } u; } Box;
            PyObject *f(Box *self) { PyObject *o = self->u.o; if (o) { Py_INCREF(o); Py_DECREF(o); }
                Py_RETURN_NONE; }"""
        found = self.assert_runs(source, "f", [Instance((list,))])
        self.assertIn("object read from memory", assumed(found, "f"))

    def test_store_into_a_union(self) -> None:
        source = """typedef union { long n; PyObject *o; } Any;
            PyObject *f(Any *u, PyObject *a) { u->o = a; Py_RETURN_NONE; }"""
        found = self.assert_runs(source, "f", [Array((None,)), list])
        self.assertIn("object stored in memory", assumed(found, "f"))

    def test_pointer_to_object(self) -> None:
        source = """PyObject *f(char *p) { PyObject *x = (PyObject *)(p + 0); Py_INCREF(x); Py_DECREF(x);
            Py_RETURN_NONE; }"""
        self.assertIn("pointer to object", assumed(self.assert_runs(source, "f", [list]), "f"))

    def test_pointer_returned_as_an_object(self) -> None:
        source = "void *make(void); PyObject *f(void) { return make(); }"
        found = self.assert_runs(source, "f", [], elsewhere="void *make(void) { return PyList_New(0); }")
        self.assertIn("pointer returned as an object", assumed(found, "f"))

    def test_variadic(self) -> None:
        source = """PyObject *f(PyObject *a, ...) { va_list v; PyObject *b; va_start(v, a); b = va_arg(v, PyObject *);
            va_end(v); if (b == NULL) return NULL; return Py_NewRef(a); }"""
        for given in (None, list):
            self.assertIn("variadic", assumed(self.assert_runs(source, "f", [list, given]), "f"))


class WithTheProgram(ProgramCase):
    """What the program reports of structs."""

    def test_structs_without_a_count(self) -> None:
        found = self.words(OtherMemory.NODE + """
            Node *made(PyObject *a) { Node *n = PyMem_Calloc(1, sizeof(Node)); if (n) n->key = Py_NewRef(a); return n; }
            Node *uncounted(PyObject *a) { Node *n = PyMem_Malloc(sizeof(Node)); if (n) n->key = a; return n; }
            void freed(Node *n) { Py_XDECREF(n->key); PyMem_Free(n); }
            void forgotten(Node *n) { PyMem_Free(n); }
            void all(Node *n) { while (n) { Node *next = n->next; Py_CLEAR(n->key); free(n); n = next; } }
            int failed(PyObject *a) { Node *n = malloc(sizeof(Node)); if (!n) return -1; n->key = Py_NewRef(a);
                if (PyList_Append(a, a) < 0) { free(n); return -1; } Py_DECREF(n->key); free(n); return 0; }""")
        self.assertEqual({name: word for name, (word, _) in found.items() if name != "all"}, {
            "made": Word.CLEAN, "uncounted": Word.FAULT, "freed": Word.CLEAN, "forgotten": Word.FAULT,
            "failed": Word.FAULT})
        self.assertIn(found["all"][0], (Word.CLEAN, Word.OPEN))

    def test_struct_that_is_made_for_a_field(self) -> None:
        made = "self->first = PyMem_Malloc(sizeof(Node)); if (!self->first) return -1; self->first->next = NULL;"
        found = self.words(OtherMemory.NODE + f"""
            typedef struct {{ PyObject_HEAD Node *first; }} Box;
            int filled(Box *self, PyObject *a) {{ {made} self->first->key = Py_NewRef(a); return 0; }}
            int uncounted(Box *self, PyObject *a) {{ {made} self->first->key = a; return 0; }}
            int lost(Box *self, PyObject *a) {{ {made} self->first->key = Py_NewRef(a);
                self->first->key = NULL; return 0; }}
            int later(Box *self, PyObject *a) {{ return filled(self, a) < 0 ? -1 : PyList_Append(a, a); }}
            """)
        self.assertEqual({name: word for name, (word, _) in found.items()}, {
            "filled": Word.CLEAN, "uncounted": Word.FAULT, "lost": Word.FAULT, "later": Word.CLEAN})

    def test_links_and_outputs(self) -> None:
        found = self.words("""
            typedef struct Link { PyObject *key; struct Link *next, *prev; } Link;
            void unlinked(Link *n) { if (n->next) n->next->prev = n->prev; n->prev = NULL; n->next = NULL; }
            int two(PyObject **a, PyObject **b) { *b = NULL; *a = PyList_New(0); if (!*a) return -1;
                *b = PyList_New(0); if (!*b) { Py_CLEAR(*a); return -1; } return 0; }
            int lost(PyObject **a, PyObject **b) { *b = NULL; *a = PyList_New(0); if (!*a) return -1;
                *b = PyList_New(0); if (!*b) { *a = NULL; return -1; } return 0; }""")
        self.assertEqual({name: word for name, (word, _) in found.items()},
                         {"unlinked": Word.CLEAN, "two": Word.CLEAN, "lost": Word.FAULT})

    def test_fields_that_are_given_up(self) -> None:
        found = self.words(OtherMemory.NODE + """
            void emptied(Node *n) { if (n) { Py_XDECREF(n->key); } }
            int failed(Node *n, PyObject *a) { n->key = PyList_New(0); if (!n->key) return -1;
                if (PyList_Append(a, n->key) < 0) { Py_DECREF(n->key); return -1; } Py_DECREF(n->key); return 0; }
            void twice(Node *n) { Py_XDECREF(n->key); Py_XDECREF(n->key); }
            PyObject *kept(Node *n) { Py_INCREF(n->key); Py_DECREF(n->key); Py_RETURN_NONE; }
            typedef struct { PyObject *item; } State;
            int state(PyObject *m) { State *s = PyModule_GetState(m); if (s) Py_XDECREF(s->item); return 0; }
            """)
        self.assertEqual({name: word for name, (word, _) in found.items() if name != "failed"}, {
            "emptied": Word.CLEAN, "twice": Word.FAULT, "kept": Word.CLEAN, "state": Word.FAULT})
        self.assertEqual(found["failed"][0], Word.FAULT, "what the field held before is lost")

    def test_copies(self) -> None:
        found = self.words(PAIR + """
            static Pair made(PyObject *a) { Pair p = {1, a}; return p; }
            PyObject *number(PyObject *a) { Pair p, q; p = made(a); q = p; if (q.n) Py_INCREF(a); Py_RETURN_NONE; }
            PyObject *lost(PyObject *a) { Pair p, q; p.n = 1; p.o = Py_NewRef(a); q = p; if (q.n) return NULL;
                Py_DECREF(q.o); Py_RETURN_NONE; }
            PyObject *unset(PyObject *a) { Pair p, q; p.o = a; q = p; q.n = 1; if (q.n) Py_INCREF(q.o);
                Py_RETURN_NONE; }
            PyObject *moved(PyObject *a) { Pair p, q; p.n = 1; p.o = Py_NewRef(a); q = p; return q.o; }
            PyObject *declared(PyObject *a) { Pair p = {1, NULL}; p.o = Py_NewRef(a); Pair q = p; return q.o; }
            """)
        self.assertEqual({name: word for name, (word, _) in found.items()}, {
            "made": Word.CLEAN, "number": Word.FAULT, "lost": Word.FAULT, "unset": Word.FAULT, "moved": Word.CLEAN,
            "declared": Word.CLEAN})


def module_with_state() -> object:
    """A new module whose state begins with an object."""
    specification = importlib.util.find_spec("_csv")
    made = importlib.util.module_from_spec(specification)
    specification.loader.exec_module(made)
    return made


if __name__ == "__main__":
    unittest.main()
