# Models, C texts, files of Lustre and traces of a given size, for bench/table and bench/instructions, which have set `top`. Each function
# writes to standard output.
# shellcheck shell=bash disable=SC2154 # `top`

# The model of the function $1 of sized_models.py; $2 is its size, and what follows its order.
sized_model() { python3 -B "$top/bench/sized_models.py" "$@"; }

# The file of Lustre of the function $1 of sized_lustre.py; $2 is its size, and what follows its order.
sized_file() { python3 -B "$top/bench/sized_lustre.py" "$@"; }

# The one-wire model $1, with so many bytes in its Model: ordinary lines, or one long one.
padded_model() {
  printf 'Model {\n'
  case "$2" in
    lines) yes '  GraphicalInterface {
    NumRootInports	    1
    Position		      [25, 33, 55, 47]
    Name		      "a name"
  }' | head -c "$(($3 / 114 * 114))" ;;
    long) printf '  Description "'; head -c "$3" /dev/zero | tr '\0' 'x'; printf '"\n' ;;
  esac
  sed 1d "$1"
}

# A C text of so many bytes, of small procedures.
small_procedures() {
  awk -v size="$1" 'BEGIN {
    text = "#include <stdint.h>\nstruct root {\n    int32_t y1;\n};\n"
    printf "%s", text
    at = length(text)
    for (k = 1; at < size; k++) {
      text = sprintf("static void p%d(struct root *s, int32_t a) {\n    if ((int64_t)a < (int64_t)s->y1) {\n        s->y1 = (int32_t)((int64_t)a + INT64_C(%d));\n    }\n}\n", k, k % 1000)
      printf "%s", text
      at += length(text)
    }
    print "void root_start(struct root *s) {\n    p1(s, (int32_t)INT64_C(1));\n}\nvoid root_step(struct root *s, int32_t u1) {\n    p1(s, (int32_t)(int64_t)u1);\n}"
  }'
}

# So many children, each called once in a tick, with nested expressions over pure functions.
nested_calls() {
  awk -v n="$1" 'BEGIN {
    print "#include <stdint.h>"
    print "static int64_t clip(int64_t v, int64_t lo, int64_t hi) {\n    return (((int64_t)v < (int64_t)lo) ? (int64_t)lo : (((int64_t)v > (int64_t)hi) ? (int64_t)hi : (int64_t)v));\n}"
    print "struct part {\n    int32_t x;\n    int32_t y;\n};"
    print "struct root {\n    int32_t y1;"
    for (k = 1; k <= n; k++) printf "    struct part c%d;\n", k
    print "};"
    print "static void mix(struct part *s, int32_t a) {"
    print "    s->x = (int32_t)clip((((int64_t)s->x * INT64_C(31)) + (((int64_t)a - (int64_t)s->y) * ((int64_t)a + INT64_C(7)))), (-INT64_C(1000000)), INT64_C(1000000));"
    print "    if (((int64_t)s->x > INT64_C(0)) && ((int64_t)a != INT64_C(0))) {\n        s->y = (int32_t)(((int64_t)s->x / (((int64_t)a * (int64_t)a) + INT64_C(1))) % INT64_C(1009));\n    } else {\n        s->y = (int32_t)(-((int64_t)s->y / INT64_C(2)));\n    }\n}"
    print "static void part_out1(struct part *s, int32_t a) {\n    mix(s, (int32_t)(int64_t)a);\n    mix(s, (int32_t)clip(((int64_t)a + (int64_t)s->y), (-INT64_C(30000)), INT64_C(30000)));\n}"
    print "void root_start(struct root *s) {\n}"
    print "void root_step(struct root *s, int32_t u1) {"
    print "    part_out1(&s->c1, (int32_t)clip((int64_t)u1, (-INT64_C(30000)), INT64_C(30000)));"
    for (k = 2; k <= n; k++) printf "    part_out1(&s->c%d, (int32_t)clip((int64_t)s->c%d.y, (-INT64_C(30000)), INT64_C(30000)));\n", k, k - 1
    printf "    s->y1 = (int32_t)(int64_t)s->c%d.x;\n}\n", n
  }'
}

# C of so many rings of so many items each: in a tick each gives its oldest item and takes the input.
rings() {
  awk -v rings="$1" -v items="$2" 'BEGIN {
    print "#include <stdint.h>\nstruct root {\nint32_t y1;"
    for (k = 0; k < rings; k++) printf "int32_t m%d[%d];\nint32_t p%d;\n", k, items, k
    print "};\nvoid root_start(struct root *s) { }\nvoid root_step(struct root *s, int32_t u1) {"
    for (k = 0; k < rings; k++) {
      printf "s->y1 = (int32_t)(int64_t)s->m%d[(int64_t)s->p%d];\n", k, k
      printf "s->m%d[(int64_t)s->p%d] = (int32_t)(int64_t)u1;\n", k, k
      printf "s->p%d = (int32_t)(((int64_t)s->p%d + INT64_C(1)) %% INT64_C(%d));\n", k, k, items
    }
    print "}"
  }'
}

# C of so many stores of the input in a tick.
plain_stores() {
  awk -v stores="$1" 'BEGIN {
    print "#include <stdint.h>\nstruct root {\nint32_t y1;"
    for (k = 0; k < stores; k++) printf "int32_t x%d;\n", k
    print "};\nvoid root_start(struct root *s) { }\nvoid root_step(struct root *s, int32_t u1) {"
    for (k = 0; k < stores; k++) printf "s->x%d = (int32_t)(int64_t)u1;\n", k
    print "}"
  }'
}

# A trace of one input and so many ticks.
long_trace() { awk -v n="$1" 'BEGIN { for (k = 1; k <= n; k++) print (k * 7919) % 20011 - 10005 }'; }

# A script of so many lines for a system with two inputs, of which each of its two functions takes one: in each tick the functions, in one
# order and then in the other, and the update.
long_script() {
  awk -v n="$1" 'BEGIN {
    for (k = 0; k < n; k++) {
      tick = int(k / 3)
      value[1] = (tick * 7919) % 20011 - 10005
      value[2] = (tick * 6007) % 20011 - 10005
      j = 1 + k % 2
      if (k % 3 == 2) print "update", value[1], value[2]
      else print "out", j, value[j]
    }
  }'
}

# A program that does the same ticks by the compiled code $1, and prints the last output, so that nothing is left out.
native_driver() {
  printf '#include "%s"\n#include <stdio.h>\n#include <stdlib.h>\nstatic struct root r;\nint main(int n, char **w) {\n' "$1"
  printf '  int ticks = atoi(w[1]);\n  root_start(&r);\n  for (int k = 1; k <= ticks; k++) root_step(&r, (int32_t)((long)k * 7919 %% 20011 - 10005));\n'
  printf '  printf("%%ld\\n", (long)r.y1);\n  return n - 2;\n}\n'
}
