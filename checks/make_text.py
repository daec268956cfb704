#!/usr/bin/env python3
"""Writes 1 MiB (1,048,576 bytes at most) of ordinary C: extension-module functions with comments, macros, strings,
numbers and all usual punctuators. Seeded, so the same text each time. clang -fsyntax-only -w takes it with no header."""
import random
import sys
random.seed(20240607)
HEAD = '''/* A module of ordinary functions, of the kind that extension modules hold. */
typedef long Py_ssize_t;
typedef struct _object { Py_ssize_t ob_refcnt; struct _typeobject *ob_type; } PyObject;
extern PyObject _none;
extern PyObject *Py_NewRef(PyObject *);
extern void Py_DECREF(PyObject *);
extern void Py_INCREF(PyObject *);
extern void Py_XDECREF(PyObject *);
extern int PyArg_ParseTuple(PyObject *, const char *, ...);
extern PyObject *PyLong_FromLong(long);
extern long PyLong_AsLong(PyObject *);
extern PyObject *PyErr_Occurred(void);
extern void PyErr_SetString(PyObject *, const char *);
extern PyObject *PyList_New(Py_ssize_t);
extern int PyList_Append(PyObject *, PyObject *);
extern PyObject *PyDict_New(void);
extern int PyDict_SetItemString(PyObject *, const char *, PyObject *);
extern PyObject *PyErr_NoMemory(void);
extern PyObject *PyExc_ValueError;
extern void *PyMem_Malloc(Py_ssize_t);
extern void PyMem_Free(void *);

#define DEFAULT_CAPACITY 16
#define GROWTH_FACTOR 2
#define MASK 0xff
#define SCALE (1 << 10)

'''
NOUNS = 'buffer table entry node list item count index value key name state parser stream block cell record queue result offset length cursor token field window counter table_entry hash_value next_index capacity total weight width height left right first last prev source target option flags level depth'.split()
VERBS = 'parse read write update find insert remove append build create release reset compute scan copy merge split check count fill sort reverse rotate resize encode decode'.split()
def ident(i):
    return '%s_%s_%d' % (random.choice(VERBS), random.choice(NOUNS), i)
def num():
    return random.choice(['0', '1', '2', '10', '64', '0x7f', '0xffu', '1000', '4096L', '31', 'DEFAULT_CAPACITY', 'GROWTH_FACTOR', 'MASK', 'SCALE', "'a'", "'\\n'", '255'])
def expr(vs, d=0):
    r = random.random()
    if d > 2 or r < 0.45:
        return random.choice(vs) if random.random() < 0.7 else num()
    if r < 0.85:
        return '%s %s %s' % (expr(vs, d + 1), random.choice(['+', '-', '*', '&', '|', '^']), expr(vs, d + 1))
    return '(%s)' % expr(vs, d + 1)
def cond(vs):
    c = '%s %s %s' % (random.choice(vs), random.choice(['<', '>', '==', '!=', '<=', '>=']), expr(vs, 1))
    if random.random() < 0.25:
        c += ' %s %s %s %s' % (random.choice(['&&', '||']), random.choice(vs), random.choice(['<', '>', '!=']), num())
    return c
def stmts(vs, ind, d, n):
    out = []
    for _ in range(n):
        r = random.random()
        p = ' ' * ind
        if r < 0.42 or d > 3:
            v = random.choice(vs)
            out.append('%s%s %s %s;' % (p, v, random.choice(['=', '=', '=', '+=', '-=', '|=']), expr(vs)))
        elif r < 0.56:
            out.append('%sif (%s) {' % (p, cond(vs)))
            out += stmts(vs, ind + 4, d + 1, random.randint(1, 3))
            if random.random() < 0.3:
                out.append('%s} else {' % p)
                out += stmts(vs, ind + 4, d + 1, random.randint(1, 2))
            out.append('%s}' % p)
        elif r < 0.64:
            v = random.choice(vs)
            out.append('%sfor (%s = 0; %s < %s; %s++) {' % (p, v, v, num(), v))
            out += stmts(vs, ind + 4, d + 1, random.randint(1, 3))
            out.append('%s}' % p)
        elif r < 0.70:
            out.append('%swhile (%s) {' % (p, cond(vs)))
            out += stmts(vs, ind + 4, d + 1, random.randint(1, 2))
            out.append('%s    break;' % p)
            out.append('%s}' % p)
        elif r < 0.80:
            out.append('%s/* %s the %s of the %s before the %s is read */' % (p, random.choice(VERBS), random.choice(NOUNS), random.choice(NOUNS), random.choice(NOUNS)))
        elif r < 0.86:
            out.append('%sanswer = PyLong_FromLong((long)%s);' % (p, random.choice(vs)))
            out.append('%sif (answer == 0) {' % p)
            out.append('%s    return 0;' % p)
            out.append('%s}' % p)
            out.append('%sPy_DECREF(answer);' % p)
        elif r < 0.92:
            out.append('%sif (PyList_Append(self, args) < 0) {' % p)
            out.append('%s    PyErr_SetString(PyExc_ValueError, "%s of %s failed");' % (p, random.choice(VERBS), random.choice(NOUNS)))
            out.append('%s    return 0;' % p)
            out.append('%s}' % p)
        else:
            out.append('%sbytes[%s & MASK] = (char)(%s >> %d); // low %s' % (p, random.choice(vs), random.choice(vs), random.randint(0, 7), random.choice(NOUNS)))
    return out
def function(i):
    vs = random.sample(NOUNS, random.randint(3, 6))
    lines = ['/* %s the %s. */' % (random.choice(VERBS).capitalize(), random.choice(NOUNS)), 'static PyObject *', '%s(PyObject *self, PyObject *args)' % ident(i), '{', '    PyObject *answer;', '    char bytes[256];']
    for v in vs:
        lines.append('    %s %s = %s;' % (random.choice(['long', 'int', 'unsigned int', 'Py_ssize_t']), v, num()))
    lines += ['', '    if (!PyArg_ParseTuple(args, "l", &%s)) {' % vs[0], '        return 0;', '    }']
    lines += stmts(vs, 4, 1, random.randint(4, 14))
    lines += ['    return PyLong_FromLong(%s);' % expr(vs), '}', '']
    return '\n'.join(lines) + '\n'
limit = int(sys.argv[2]) if len(sys.argv) > 2 else 1048576
text = HEAD
size = len(text)
parts = [text]
i = 0
while True:
    f = function(i)
    if size + len(f) > limit:
        break
    parts.append(f)
    size += len(f)
    i += 1
parts.append('/*' + '-' * (limit - size - 5) + '*/\n' if limit - size >= 5 else '')
open(sys.argv[1], 'w').write(''.join(parts))
print(sys.argv[1], sum(map(len, parts)), 'bytes,', i, 'functions')
