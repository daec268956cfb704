"""How C writes texts, characters, comments and the marks of the preprocessor, as parts of regular expressions."""

import re

#: A text or a character constant.
QUOTED = r'"(?:[^"\\\n]|\\.)*"|\'(?:[^\'\\\n]|\\.)*\''
#: A comment; `re.DOTALL` is asked for.
COMMENT = r"/\*.*?\*/|//[^\n]*"
#: The line and the file from which the next line comes.
MARKER = re.compile(r'# (\d+) "((?:[^"\\]|\\.)*)"')
