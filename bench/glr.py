"""Programs by bison's GLR parser for the cases of compare.py, where bison and cc are installed.

Each reads the file that it is given and writes one number. A semantic value is a count, and merged alternatives are added; but a merge that
comes after a value was used is added again, so for an ambiguous text the number says nothing. No values are written, and tokens are made by a
scanner in C: the times are those of a recognizer.
"""
import pathlib, shutil, subprocess

PROGRAM = r"""
%glr-parser
%define api.value.type {double}
%{
#include <ctype.h>
#include <stdio.h>
#include <stdlib.h>
#include <string.h>
#define YYMAXDEPTH 100000000
static const unsigned char *at;
static int yylex(void);
static void yyerror(const char *text) { (void) text; }
static double result;
%}
%code {
static YYSTYPE add(YYSTYPE a, YYSTYPE b) { return a + b; }
}
%token NUMBER TEXT WORD
DECLARED
%%
whole: top { result = $1; };
RULES
%%
static int yylex(void) {
    while (isspace(*at)) at++;
    if (*at == 0) return 0;
    SCANNED
    return *at++;
}
int main(int count, char **words) {
    FILE *file = count == 2 ? fopen(words[1], "rb") : 0;
    if (!file) return 4;
    fseek(file, 0, SEEK_END);
    long length = ftell(file);
    rewind(file);
    unsigned char *text = malloc(length + 1);
    if (fread(text, 1, length, file) != (size_t) length) return 4;
    text[length] = 0;
    at = text;
    if (yyparse()) return 1;
    printf("%.0f\n", result);
    return 0;
}
"""

DIGITS = "if (isdigit(*at)) { while (isdigit(*at) || *at == '.') at++; return NUMBER; }"
JSON_TOKENS = """if (*at == '"') { for (at++; *at != '"'; at++) if (*at == '\\\\') at++; at++; return TEXT; }
    if (isalpha(*at)) { while (isalpha(*at)) at++; return WORD; }
    if (*at == '-' || isdigit(*at)) { at++; while (strchr("0123456789.eE+-", *at) && *at) at++; return NUMBER; }"""

JSON = """
top: value;
value: TEXT { $$ = 1; } | NUMBER { $$ = 1; } | WORD { $$ = 1; } | '[' values ']' { $$ = $2; } | '[' ']' { $$ = 1; } | '{' pairs '}' { $$ = $2; } | '{' '}' { $$ = 1; };
values: value | values ',' value { $$ = $1 * $3; };
pairs: pair | pairs ',' pair { $$ = $1 * $3; };
pair: TEXT ':' value { $$ = $3; };
"""
OPERATORS = """
top: e;
e: NUMBER { $$ = 1; } | '(' e ')' { $$ = $2; } | e '^' e { $$ = $1 * $3; } | '-' e %prec MINUS { $$ = $2; }
 | e '*' e { $$ = $1 * $3; } | e '/' e { $$ = $1 * $3; } | e '+' e { $$ = $1 * $3; } | e '-' e { $$ = $1 * $3; };
"""

# by the first word of a case: what is declared, the rules, the scanner
GRAMMARS = {
    "JSON": ("", JSON, JSON_TOKENS),
    "right": ("", "top: 'x' top { $$ = $2; } | 'x' { $$ = 1; };", ""),
    "left": ("", "top: top 'x' { $$ = $1; } | 'x' { $$ = 1; };", ""),
    "sum": ("%expect 1\n%expect-rr 0", "top: e; e: e '+' e %merge <add> { $$ = $1 * $3; } | NUMBER %merge <add> { $$ = 1; };", DIGITS),
    "operators": ("%left '+' '-'\n%left '*' '/'\n%precedence MINUS\n%right '^'", OPERATORS, DIGITS),
    "brackets": ("", "top: '(' top ')' { $$ = $2; } | 'x' { $$ = 1; };", ""),
}


def has_bison():
    return bool(shutil.which("bison") and shutil.which("cc"))


def build(case, folder):
    """The program for a case, made once in a folder."""
    word = case.split()[0]
    made = pathlib.Path(folder) / f"glr_{word}"
    if not made.exists():
        declared, rules, scanned = GRAMMARS[word]
        text = PROGRAM.replace("DECLARED", declared).replace("RULES", rules).replace("SCANNED", scanned)
        made.with_suffix(".y").write_text(text)
        subprocess.run(["bison", "-Wnone", "-o", str(made.with_suffix(".c")), str(made.with_suffix(".y"))], check=True)
        subprocess.run(["cc", "-O2", "-w", "-o", str(made), str(made.with_suffix(".c"))], check=True)
    return str(made)
