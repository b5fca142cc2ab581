// The source texts of the menu. The first has no error.
export const EXAMPLES = [
  {
    name: 'A function',
    text: `(module
  ;; adds two numbers, and then one
  (func $add (export "add") (param $a i32) (param $b i32) (result i32)
    local.get $a
    local.get $b
    i32.add
    i32.const 1
    i32.add)
  (data "caf\\u{e9} \\00")
  (global $pi f64 (f64.const 0x1.921fb54442d18p+1)))
`,
  },
  {
    name: 'A module to run',
    text: `(module
  (memory (export "memory") 1 2)
  (global (export "limit") i64 (i64.const 20))
  (func $factorial (export "factorial") (param $n i64) (result i64)
    (if (result i64) (i64.eqz (local.get $n))
      (then (i64.const 1))
      (else
        (i64.mul
          (local.get $n)
          (call $factorial (i64.sub (local.get $n) (i64.const 1)))))))
  (func (export "divide") (param i32 i32) (result i32 i32) ;; traps if the second is 0
    (i32.div_s (local.get 0) (local.get 1))
    (i32.rem_s (local.get 0) (local.get 1)))
  (func (export "forever") (loop (br 0))))
`,
  },
  {
    name: 'An identifier that is not defined',
    text: `(module
  (func $twice (param $n i32) (result i32)
    (i32.mul (local.get $m) (i32.const 2))))
`,
  },
  {
    name: 'A module that is not valid',
    text: `(module
  (func (export "sum") (result i32)
    i32.const 1
    i32.add))
`,
  },
  {
    name: 'Annotations, of which none is registered',
    text: `(module
  (@note "x" (; a (; nested ;) comment ;) (a group (of) its (own)))
  (@metadata.code.branch_hint "\\01")
  (func (@name "f")
    nop))
`,
  },
  {
    name: 'Words and numbers',
    text: `;; numbers
1 -1_000 0x7f_ff +inf nan nan:0x7f_ffff 0x1.8p3 6.02e23
;; identifiers, strings and keywords
$id $"an id in quotes" "caf\\u{e9}" i32.add
;; words that are reserved
0$x ][ 1__0
`,
  },
  {
    name: 'A fault: no such escape',
    text: `(module
  (data "no \\q escape")
  (func))
`,
  },
  {
    name: 'A fault: a comment that does not end',
    text: `(module
  (; it begins here (; and this one ends ;)
  (func))
`,
  },
  {
    name: 'A fault: a character that deceives',
    text: `(module
  ;; what follows is read from the right: \u202e (func)
  (func))
`,
  },
];
