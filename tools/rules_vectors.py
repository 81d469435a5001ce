#!/usr/bin/env python3
"""Writes crates/rows/data/vectors, the records that the program rows runs, and crates/rows/stdout, the line that it must
print, from the answers of model.py. The same bytes each time.

    rules_vectors.py                write both files (in the folder that holds crates.txt, or above it)
    rules_vectors.py --check        say whether both are as this would write them
    rules_vectors.py --objects      say whether the rows for object types are as the model has them
    rules_vectors.py --list [ITEM]  each record's number from 0, the items that it is for, options, what is lent, answer, text

First document 01's twelve rows, then texts, then the keys of keys_vectors.py. Items are those of the checklist: R1 to R41
are the reading rules of document 01 in its order, N1 to N10 its diagnostics, X1 to X23 its refusals. Each has a record
here; a row has the item `row`, a key X15. The answer is the twelve numbers of rules_model.py.
"""
import re
import sys

import keys_vectors
import model as m
from rules_model import WIDE, Cases, ObjectMaker, expected, keyofs, read, record
from words_vectors import written

D = m.RECORD                                                # words of a diagnostic
AMPLE = 403, 101, 13 * D + 1, 2003                          # words lent for nodes, names, diagnostics; bytes for the key
ITEMS = ["R%d" % i for i in range(1, 42)] + ["N%d" % i for i in range(1, 11)] + ["X%d" % i for i in range(1, 24)]

# Items, and after the colon texts with ~ between them; # is a line break.
EXAMPLES = r"""
R1 R2 R3 R19 R20 R22 R23 R25 R36 R38 N5 X3: A ~ string[] ~ | A ~ A | B & C ~ () => A extends B ? C : D ~ T extends infer U extends number ? X : Y ~ (infer U extends number ? X : Y) ~ [A?, ...B[]] ~ [a?: A, B] ~ A<<T>() => T> ~ A#[B] ~ T extends U ? : V ~ new (this: A) => B
R1: A extends [B?, ...C[]] ? (d: E) => F | G & keyof H : { [K in I]: J } ~ keyof [{ [K in A]: () => (B | C)[D] }] ~ new (a: [b: { [K in A]: B }]) => typeof c<D[]>
R2: T extends (A extends B ? C : D) ? X : Y ~ T extends [A extends B ? C : D] ? X : Y ~ T extends A<B extends C ? D : E> ? X : Y ~ T extends A[B extends C ? D : E] ? X : Y ~ T extends `${A extends B ? C : D}` ? X : Y
R2: T extends { [K in A extends B ? C : D]: E } ? X : Y ~ T extends { [K in A as B extends C ? D : E]: F } ? X : Y ~ T extends { [K in A]: B extends C ? D : E } ? X : Y ~ T extends this is A extends B ? C : D ? X : Y ~ T extends asserts x is A extends B ? C : D ? X : Y
R2: T extends keyof A extends B ? C : D ? X : Y ~ T extends A | B extends C ? D : E ~ T extends [...a: A extends B ? C : D] ? X : Y ~ T extends [...A extends B ? C : D] ? X : Y ~ T extends import("m")<A extends B ? C : D> ? X : Y
R3: (a: B) => C ~ <T>() => A ~ new () => A ~ abstract new () => A ~ () => () => A ~ () => A | B ~ () => A[]
R4: A# extends B ? C : D ~ A#extends B ? C : D ~ A extends B ? C : D ~ A extends#B ? C : D ~ A | B extends C ? D : E ~ A | B#extends C ? D : E ~ (A)#extends B ? C : D
R5: A extends B extends C ? D : E ? F : G ~ A extends B ? C extends D ? E : F : G extends H ? I : J ~ A extends B#? C : D ~ A extends B ? ~ A extends B ? C D ~ A extends B ~ A extends B ? C ~ A extends B : C ~ A extends B ? C : ~ A extends ~ A extends B ? C#: D ~ A extends B ? C :#D ~ A extends () => B ? C : D
R6: <T>() => A ~ new () => A ~ abstract ~ abstract#new () => A ~ abstract new ~ abstract A ~ abstract new () => A ~ new ~ < ~ abstract.a ~ abstract[]
R7: ()=>A ~ (...a)=>A ~ () ~ (...A) ~ (...) ~ (... ~ () =>
R8: (a: B) => C ~ (a, b) => C ~ (a?) => C ~ (a = b) => C ~ (A) ~ (A?) ~ (A?) => B ~ (a) => b ~ (a)#=> b ~ (A) B ~ (A) = ~ (A:) ~ (A, B) ~ (A? B) ~ (A# : B) => C
R9: (readonly A[]) ~ (readonly a: B) => C ~ (readonly#a: B) => C ~ (abstract out a: B) => C ~ (abstract out#a: B) => C ~ (this) => A ~ (this: A) => B ~ (out) => A ~ (public#: A) => B ~ (public a) => B ~ (readonly this: A) => B ~ (as a: B) => C ~ (readonly) => A ~ (readonly readonly) => A ~ (readonly public a?) => A ~ (out class) => A
R10: (A | B) ~ (a.b) ~ ((A)) ~ (A)[] ~ (readonly A[])[] ~ (A & B)#[C] ~ (public)
R11: abstract new <T>(a: A) => B ~ new <T>(a) => B ~ () A ~ () => ~ <T> A ~ new A ~ abstract new A ~ () ~ (a: B) ~ new () A ~ new <T>() A ~ <T>(a: A extends B ? C : D) => E ~ T extends (a: A extends B ? C : D) => E ? X : Y ~ <T>(a#) =># A ~ new new () => A
R12: T extends () => A extends B ? C : D ? X : Y ~ T extends () => infer R extends S ? R : N ~ T extends () => infer R extends S ~ T extends new () => A extends B ? C : D ? X : Y ~ T extends () => x is A extends B ? C : D ? X : Y
R13: T extends <U extends A extends B ? C : D>() => V ? X : Y ~ T extends <U = A extends B ? C : D>() => V ? X : Y ~ <U extends A extends B ? C : D>() => V ~ <U = A extends B ? C : D>() => V ~ T extends <U extends infer V extends A>() => B ? X : Y
R14: (this?: A) => B ~ (...a?: B) => C ~ (a?: B, c) => d ~ (a,) => b ~ (,) => a ~ (a b) => c ~ (a,,b) => c ~ (...a) => B ~ (a?) => B ~ (this) => A ~ (this, a) => B ~ (string) => A ~ (class) => A ~ (a:) => b ~ (1) => A ~ (...a: B[]) => C ~ (a: B, ...c: D) => E ~ (this,) => A ~ (a#?#: B) => C
R15: () => x is T ~ () => this is T ~ () => asserts is T ~ () => x#is T ~ () => asserts x is T ~ () => typeof is ~ () => class is T ~ () => x is y is z ~ new () => x is T ~ () => x is ~ () => x is T[] | U ~ () => string is T ~ () => x is#T ~ () => 1 is T
R14 R16 X6 X7 X8 X9: (a, this) => B ~ (...this) => A ~ (this = A) => B ~ (a = b) => c ~ (this: A = b) => c ~ (...a, b) => c ~ (...a,) => c ~ (a, readonly ...b) => c ~ (a, readonly b) => c ~ ({b}: C) => D ~ (a, {b}) => c ~ (a, [b]) => c ~ (this, a: B, c) => D ~ <T>(this: A) => B ~ <T>(this: A, b: C) => D
R16: (this: A) => B ~ (this) => A ~ (this: A<B>) => C ~ (this: () => A) => B
R17 N4 N10: new (this: A<B, C>) => D ~ new (this) => A ~ new (this, a: B) => C ~ new (this: A<>) => B<> ~ new <T>(this: A.b, c: D) => E ~ abstract new (this: X) => Y ~ new (this: new (this: A) => B) => C ~ new <T, U>(this: `a${B}c`, d?: E) => F<> ~ new (this: A) => B ~ new (this#: A#) => B ~ new (this: (infer U extends A<> ? X<> : Y)) => Z ~ new (this: A
R18: <T extends A = B>() => C ~ <string>() => C ~ <>() => C ~ <T,>() => A ~ <,>() => A ~ <T U>() => A ~ <class>() => A ~ <T ~ <T> ~ < ~ A<<>() => B> ~ <T, U = V>(a) => B ~ <T = A extends B ? C : D>() => E ~ <T =>() => A ~ <T = A extends B>() => C ~ <T extends>() => A ~ <T#extends A#= B#>() => C ~ <T,,U>() => A ~ <1>() => A
R18 X10: <const T>() => A ~ <in>() => A ~ <out T>() => A ~ <out>() => A ~ <out#T>() => A ~ <out = A>() => B ~ <in T>() => A ~ <in out T>() => A ~ <T, const U>() => A ~ <const>() => A ~ <out out>() => A ~ <out class>() => A ~ <out, T>() => A
R19 R20: A | () => B ~ & A & B ~ A | ~ A & ~ | ~ & ~ A | | B ~ A & | B ~ | & A ~ A & B | C & D ~ (A | B) & C ~ & A ~ | A | B ~ A | B ~ & | A ~ A | & B ~ A#| B ~ A |#B ~ |#A
R20: A & new () => B ~ A | (() => B) ~ A | <T>() => B ~ A & keyof B ~ A | infer U ~ A & B | C ~ keyof A & unique B ~ A | B extends C & D ? E | F : G & H
R21: keyof ~ keyof infer U ~ unique readonly keyof A ~ keyof | A ~ (keyof A)[] ~ keyof A[] ~ unique symbol ~ readonly A[] ~ keyof keyof A ~ keyof#A ~ unique ~ readonly ~ keyof () => A ~ keyof (() => A) ~ keyof A? ~ keyof.a ~ T extends keyof A[B extends C ? D : E] ? X : Y
R22: infer ~ infer class ~ infer U ~ infer string ~ infer U extends A ~ infer U extends ~ T extends infer U#extends number ? X : Y ~ T extends infer U extends A extends B ? C : D ? X : Y ~ infer#U ~ infer U[] ~ infer.a
R23 N10: (infer U#extends number ? X : Y) ~ T extends (infer U extends A ? B : C) ? X : Y ~ T extends [infer U extends A ? B : C] ? X : Y ~ (infer U extends A<> ? X : Y) ~ (infer U extends A<>) ~ [infer U extends A?] ~ (infer U extends infer V extends A ? B : C) ~ (infer U extends () => A ? B : C) ~ keyof infer U extends A ? B : C ~ (infer U extends new (this: A<B>) => C<> ? X : Y)
R23: infer U extends A ? B : C ~ (infer U extends A#? X : Y) ~ [infer U extends A ? B : C, infer V extends D] ~ (infer U extends (infer V extends A ? B : C) ? X : Y) ~ (infer U extends [A<>, B?, C] ? X : Y) ~ (infer U extends A extends B ? C : D) ~ (infer U extends A<<T>() => U> ? X : Y) ~ (infer U extends A ? ) ~ A | infer U extends B ? C : D
R24: (infer U extends number) ~ T extends (infer U extends number) ? X : Y ~ T extends infer U extends number ? X : Y ~ [infer U extends A] ~ A<infer U extends B> ~ T extends keyof infer U extends A ? X : Y ~ T extends A | infer U extends B ? X : Y ~ T extends infer U extends infer V extends A ? X : Y
R25: A! ~ A? ~ A ? B ~ A[B] ~ A[] ~ A[-1] ~ A[- B] ~ A#! ~ A#? ~ A#[B] ~ A#[] ~ A[#] ~ A[#B] ~ A?! ~ A[B][C] ~ A[B ~ A[ ~ A ? () ~ A ? ( ~ A ? ((A ~ A ? - 5 ~ A ? - B ~ A?function ~ A?const ~ A?extends ~ A?{ ~ A?< ~ A?? ~ A?... ~ A?`a${B}` ~ A?=> ~ A[(] ~ A[((B))] ~ A?[] ~ A![] ~ A[]! ~ A[B]#[C] ~ A[B C] ~ A[=] ~ A ?#B ~ A ? (((() ~ A ? (] ~ A[A extends B ? C : D]
R26: any ~ bigint ~ boolean ~ never ~ number ~ object ~ string ~ symbol ~ undefined ~ unknown ~ void ~ null ~ string.a ~ any.b.c ~ null.a ~ void.a ~ string#.a ~ string.#a ~ string. ~ any<A> ~ null[] ~ undefined.a<B>
R27: this ~ this.a ~ this is A ~ this#is A ~ this is ~ this is this is A ~ this[] ~ this is A | B ~ this is#A ~ this<A> ~ (this) ~ this is A extends B ? C : D
R28: 1 ~ 2n ~ 's' ~ "s" ~ -1 ~ -1n ~ - A ~ - ~ true ~ false ~ true.a ~ '' ~ -'a' ~ - 1 ~ -#1 ~ 1 2 ~ 0x1F ~ 1.5 ~ --1 ~ +1 ~ true[] ~ 'a' | "b"
R29: asserts x ~ asserts x is T ~ asserts this ~ asserts#x ~ asserts ~ asserts.a ~ asserts x#is T ~ asserts is T ~ asserts is is T ~ asserts class is T ~ asserts x[] ~ asserts<A> ~ asserts "a" ~ asserts this is A | B ~ asserts this#is A ~ asserts x is ~ asserts asserts ~ asserts x is asserts y is T ~ asserts[] ~ asserts x.y
R30: typeof a ~ typeof a.b<C> ~ typeof this.a ~ typeof import("m").a ~ typeof ~ typeof class ~ typeof a#<B> ~ typeof a. ~ typeof this ~ typeof a.class ~ typeof import("m") ~ typeof import("m").a<B> ~ typeof#a ~ typeof 1 ~ typeof a<> ~ typeof a[] ~ typeof typeof a ~ typeof import
R31: import("m") ~ import("m").a.b<C> ~ import("m")<A> ~ import ~ import("m" ~ import("m"). ~ import "m" ~ import#("m") ~ import("m").class ~ import("m")<> ~ import("m")#<A> ~ import("m")[] ~ import('m').a#.b ~ import("m").1
R31 X11: import(A) ~ import("m",) ~ import() ~ import(1) ~ import(`m`) ~ import("m", A) ~ import("m",, ~ import( ~ typeof import(A) ~ typeof import("m",)
R32 X4: {} ~ {a: B} ~ { "a" in ~ { } in ~ { [ 5 in ~ { a in ~ { [K of T]: V } ~ { ~ { + [K in T]: V } ~ { readonly K in T } ~ { readonly readonly in ~ { readonly "a" in ~ { [ ~ { + ~ { - ~ { +readonly ~ { -readonly ~ { readonly ~ { readonly [ ~ { ] in ~ { [a: B]: C } ~ { a } | B ~ A | {} ~ { [K ~ { new () } ~ { [in in T] } ~ { readonly [K of T] } ~ { - A in
R33: [] ~ [A] ~ (A) ~ ((A)) ~ (A ~ [A ~ (A)) ~ ([A]) ~ (#A#) ~ [[A], (B)] ~ (A | (B & (C))) ~ [(A), ((B))?]
R34: `a` ~ `` ~ `a${A}b${B}c` ~ `${A}` ~ `a${A ~ `a${`b${C}`}` ~ `${A}`[] ~ `a` `b` ~ `${A}${B}${C}` ~ `${A extends B ? C : D}` ~ `a\`b${C}` ~ `${`${A}`}`
R35: A ~ A.b.c ~ A.class ~ A. ~ A.1 ~ A#.b ~ A.#b ~ A<B> ~ A.b<C>.d ~ as.is ~ out<A> ~ class ~ => ~ A as B ~ public ~ is ~ as ~ out ~ infer.b ~ A..b ~ public.class.this ~ ...A ~ ) ~ const ~ in ~ extends
R36: A<B> ~ A<B,> ~ A<> ~ A<,> ~ A<B C> ~ A< ~ A#<B> ~ A<=B> ~ A<<=B> ~ A<< ~ A<<T> ~ A<<= ~ A<= ~ A<B>.c ~ A<<<T>() => U>() => V> ~ A<B<C>> ~ typeof a<<T>() => U> ~ import("m")<<T>() => U> ~ A.b<<T>() => T> ~ A<<T>() => T, B> ~ A#<<T>() => T> ~ A<<T>(a: B<<U>() => V>) => W> ~ A<B><C> ~ A<#B> ~ A<<>() => B> ~ A<<= ~ A<<=>() => B> ~ A<<T>
R37: { [K in T]: V } ~ { [K in T] } ~ { +readonly [K in T]-?: V } ~ { -readonly [K in T]+? } ~ { [K in T as U]?: V; } ~ { [K in T]: V;; } ~ { [K in T]: V, } ~ { [class in T]: V } ~ { [K in T]+: V } ~ { [K in T as]: V } ~ { [K in] } ~ { [K in T ~ { [K in T]: } ~ { [K in T]: V ~ { [K in T]- } ~ { [string in T]: V } ~ { [K in T]#;# } ~ { [K in T as U as V] } ~ { [K in T]?? } ~ { [K in T];: V } ~ { [this in T]: V }
R37: [] ~ [A B] ~ [A ~ [a: B] ~ [a?: B] ~ [...a?: B] ~ [a: ...B] ~ [a: B?] ~ [...a?: ...B?] ~ [A?, B] ~ [A?, B, C?] ~ [A?, ...B, C] ~ [class: A] ~ [a?] ~ [a ? : B] ~ [a ? b] ~ [... ...A] ~ [a: b: c] ~ ["a": B] ~ [a: A, B?, c: C] ~ [this: A] ~ [a:] ~ [a?:] ~ [...] ~ [a: () => B] ~ [...a: B] ~ [a#: B] ~ [a#?#: B] ~ [1: A] ~ [a.b: C]
R38: [(A[]?)] ~ [A?] ~ [(A?)] ~ [A?[]] ~ [A??] ~ [A?!] ~ [(A[]?), B] ~ [A?, (B)] ~ [((A?))] ~ [(A)?] ~ [A[]?] ~ [A | B?] ~ [keyof A?] ~ [(A?)?] ~ [infer U extends A?]
R39: [...A?] ~ [...(A?)] ~ [...A?, B] ~ [...A??] ~ [B?, ...A?] ~ [...a: B?]
R40: `${A B}` ~ `${}` ~ `a${A}b${B C}d` ~ `a${A, B}` ~ `a${}b` ~ `${A}${}` ~ `${A}}` ~ `${A}` B
R41: [A,] ~ [,] ~ [A,,] ~ A<B,> ~ A<B,,> ~ <T,>() => A ~ (a,) => B ~ [A,#B#,] ~ [A,B,C,] ~ <T,U,>() => A ~ (a,b,) => C ~ A<,B> ~ [a: A,]
N1: A<B<>, C<>> ~ [A<>?, B<>] ~ <>(a: A<>) => B<> ~ [a?: A<>, ...b?: B<>?, C<>] ~ new <>(this: A<>, b: B<>) => C<> ~ { [K in A<>as B<>]: C<> }
N2: <>() => A ~ < >() => A ~ <#>() => A ~ new <>() => A ~ A<<>() => B>
N3: A<> ~ A< > ~ A.b<#> ~ typeof a<> ~ import("m")<> ~ typeof import("m").a<> ~ A<B<>, C<>> ~ A<<T>() => B<>>
N4: new (this: A<>) => B<> ~ new (this) => A ~ new (this: A) => B ~ abstract new (this: A[]) => x is B<> ~ new (this: A, b: B<>) => C ~ new <>(this: A<>) => B<>
N5: [a?: A, b: B?] ~ [A?, B, C] ~ [A?, b: B] ~ [A?, ...B, C] ~ [A?, ...b: B] ~ [a?: A, b: B] ~ [A?, B, C?, D] ~ [...A?, B] ~ [a?: A, [B?, C]]
N6: [a: ...B] ~ [a?: ...B] ~ [a: ...B[]] ~ [a: ... B | C]
N7: [a: B?] ~ [a?: B?] ~ [a: (B?)] ~ [a: ...B?] ~ [...a: B?] ~ [a: B??]
N8: [...a?: B] ~ [a?: A, ...b?: B] ~ [...a?: ...B?] ~ [A?, ...a?: ...B?] ~ [a?: ...A?, ...b?: B<>, C] ~ [...a?: B, C]
N9: [a?:  A , b :  B ?] ~ [ ...#a ? : ... B ? ] ~ new ( this : A ) => B ~ A <  > ~ < > ( ) => A
N10: (infer U extends A<> ? X : Y) ~ (infer U extends [A?, B] ? X<> : Y) ~ (infer U extends <>() => A ? X : Y) ~ (infer U extends (infer V extends A<> ? B : C<>) ? X : Y) ~ new (this: A<>) => B ~ [A<>, infer U extends B<> ? C<> : D]
X3: T extends U ? : V ~ ; ~ A B ~ (A B) ~ [A} ~ A<B] ~ { [K in A]: B ) ~ () => ) ~ @ ~ #a
X5: ? ~ ! ~ * ~ ?A ~ *A ~ !A ~ A | ?B ~ [?A] ~ A<*> ~ (!A) ~ keyof ?A ~ ? B : C
X6: (readonly a: B) => C ~ (abstract out a: B) => C ~ (a, public b: C) => D ~ (readonly this) => A ~ (a, readonly#b) => c ~ (...readonly a) => b ~ (a, readonly: B) => C
X7: (a = b) => c ~ (a: B = c) => d ~ (a? = b) => c ~ (...a = b) => c ~ (this = A) => B ~ (this: A = b) => c
X8: (a, this) => B ~ (...this) => A ~ (a, this: B) => C ~ (this, this) => A ~ new (a, this) => B
X9: (...a, b) => c ~ (...a,) => c ~ (...a: A, ...b) => c ~ (...a?: A, b) => c
X18: A<=B> ~ A<<=B> ~ A<<= ~ A<<=>() => B> ~ typeof a<=B> ~ import("m")<= ~ A B ~ A<<1>() => B>
X23: (infer U extends ) ? X : Y) ~ (infer U extends [A ? X : Y) ~ (infer U extends {} ? X : Y) ~ (infer U extends A<B C> ? X : Y) ~ (infer U extends (a = b) => c ? X : Y) ~ (infer U extends A<=B> ? X : Y) ~ infer U extends
R23 X22: A extends `a${infer B}c` ? D : E ~ A extends [infer B, ...infer C] ? D : E ~ (infer U extends A<B, C> ? X : Y) ~ (infer U extends A.b<C.d> ? X.y : Z) ~ (infer U extends (infer V extends A<B> ? C : D) ? X : Y)
"""


# Rows for object types (02, W1): a text, what it is read with, and what it comes to in numbers: diagnostics, the end, the
# key where it is short, or a refusal.
OBJECTS = r"""
{} |  | end 2; key 16 40 00
{ a: A } |  | end 5; key 16 40 04 00 00 16 14 10 01 00 01 41 00
{ a } |  | end 3; key 16 40 04 00 00 16 10
{ readonly a?: A } |  | end 7
{ "a": A, 1: B; c } |  | end 11
{ a: A#b: B } |  | end 8
{ a#(b): C } |  | end 8
{ a: A#(b): C } |  | end 10
{ a?(): B } |  | end 8; key 16 40 04 80 00 2C 30 00 20 80 08 00 0A 10
{ m<T extends A>(this: B, x?: C): x is D } |  | end 22
{ a#? #: B } |  | end 6
{ (): A } |  | end 6; key 16 40 05 00 01 04 00 40 00 50 40
{ <T>(x: T): T, (this) } |  | end 16
{ new (): A } |  | end 7; key 16 40 05 80 02 08 00 80 00 A0 80
{ new <T>(x: T), } |  | end 12
{ new#(): A } |  | end 7
{ new: A; new?(): B } |  | end 12
{ new (this: A<>): B<> } |  | 2 on 14 to 16, 3 on 7 to 16, 2 on 20 to 22; end 14
{ [k: string]: A } |  | end 9; key 16 40 06 20 00 2D 61 38 20 02 00 02 82
{ readonly [k: number]: A; } |  | end 11
{ [a: A, b: B]: C } |  | 12 on 2 to 14; end 13
{ readonly [a: A, b: "x",]: C } |  | 9 on 24 to 25, 12 on 2 to 26; end 15
{ []: A } |  | 12 on 2 to 4; end 6; key 16 40 06 00 80 08 00 0A 08
{ readonly [a?: boolean,]: C } |  | 8 on 13 to 14, 9 on 23 to 24, 11 on 12 to 23; end 12
{ [a: 'x']: A } |  | 10 on 6 to 9; end 9
{ [a: -1]: A } |  | 10 on 6 to 8; end 10
{ [a: `t`]: A } |  | 10 on 6 to 9; end 9
{ [a: `t${T}`]: A } |  | end 11
{ [a: this]: A } |  | end 9
{ [a: unique symbol]: A } |  | end 10
{ [a: ("x")]: A } |  | 10 on 7 to 10; end 11
{ [a: ("x")]: A } | brackets kept | end 11
{ [a: null]: A<> } |  | 11 on 3 to 10, 2 on 14 to 16; end 11
{ [a: string] } |  | 3 at 6
{ [a?]: A } |  | 3 at 4
{ [a, b: B]: C } |  | 3 at 3
{ [a: A b: B]: C } |  | 3 at 5
{ [a]: A } |  | 31 at 1
{ [a.b](): A } |  | 31 at 1
{ readonly ["a"]: A } |  | 31 at 2
{ [a ? b : c]: A } |  | 31 at 1
{ [...a: A]: B } |  | 3 at 2
{ [public a: A]: B } |  | 3 at 3
{ [in: A]: B } |  | 3 at 2
{ [class: A]: B } |  | 31 at 1
{ [readonly]: A } |  | 31 at 1
{ get a(): A } |  | 31 at 1
{ set#a: A } |  | 31 at 1
{ get [a](): A } |  | 31 at 1
{ get: A; set(): B; get<T>(): C; set? } |  | end 23
{ static a: A } |  | 31 at 1
{ abstract#a: A } |  | 31 at 1
{ out [a: A]: B } |  | 31 at 1
{ readonly static a: A } |  | 31 at 2
{ readonly get a(): A } |  | 31 at 2
{ static: A; abstract(): B } |  | end 11
{ readonly#a: A } |  | end 6
{ readonly: A; readonly readonly: B; readonly? } |  | end 13
{ readonly readonly a: A } |  | 3 at 3
{ readonly a(): B } |  | end 8
{ readonly(): A; readonly new(): B } |  | end 14
{ in a: A } |  | 3 at 2
{ in: A; class?: B; this(): C } |  | end 16
{ a b: A } |  | 3 at 2
{ a: A;; } |  | 3 at 5
{ a#; b#, c } |  | end 7
{ , } |  | 3 at 1
{ [a: A]?: B } |  | 3 at 6
{ a |  | 3 at 2
{ a | room 0 | 3 at 2
{ 1n: A } |  | 3 at 1
{ a = A } |  | 3 at 2
{ a() => B } |  | 3 at 4
{ a<<T>(): B } |  | 3 at 2
{ a: A }["a"][] |  | end 10
{ a: A#[c: D]: E } |  | end 12
{ a: T#extends: U } |  | end 8
{ a: keyof { b } } | { c } |  | end 12
({ a }: B) => C |  | 3 at 4
({ a: B }) => C |  | end 7
{ + a } |  | 3 at 1
{ "a" in B } |  | 3 at 1
{} in A |  | 3 at 1
{ a: { b: C } } |  | end 9
{ a; } | room 0 | 8 at 3
{ a: A } | room 2 | 8 at 5
{ [a: A, b: B<C>]: D } | room 4 | 12 on 2 to 17; end 16
{ [a: A, b: B<C>]: D } | room 2 | 8 at 12
{ [a?: A]: B } | records 0 | 9 at 3
{ [a: A,]: B } | records 0 | 9 at 6
{ []: A } | records 0 | 9 at 3
{ new (this): A<> } | records 1 | 9 at 9
"""

# Rows for the places of refusals (02, W2): which form is not read, and its token, half and byte.
PLACES = r"""
? A |  | 20 at 0 half 0 byte 0
A | ! B |  | 20 at 2 half 0 byte 4
A[*] |  | 20 at 2 half 0 byte 2
(readonly a: B) => C |  | 21 at 1 half 0 byte 1
(readonly this: A) => B |  | 21 at 1 half 0 byte 1
(a = 1) => A |  | 22 at 2 half 0 byte 3
(this = A) => B |  | 22 at 2 half 0 byte 6
(...a = 1, b) => C |  | 22 at 3 half 0 byte 6
(a, this: B) => C |  | 23 at 3 half 0 byte 4
(...this) => A |  | 23 at 2 half 0 byte 4
(...this = A) => B |  | 23 at 2 half 0 byte 4
(...a, b) => C |  | 24 at 3 half 0 byte 5
<in T>() => A |  | 25 at 1 half 0 byte 1
<out T>() => A |  | 25 at 1 half 0 byte 1
<const T>() => A |  | 25 at 1 half 0 byte 1
import(A) |  | 26 at 2 half 0 byte 7
import("a", {}) |  | 27 at 3 half 0 byte 10
{ [a]: B } |  | 31 at 1 half 0 byte 2
{ readonly get a(): A } |  | 31 at 2 half 0 byte 11
{ m(static a) } |  | 21 at 3 half 0 byte 4
T extends U ? : V |  | 3 at 4 half 0 byte 14
A<=B> |  | 3 at 1 half 1 byte 2
A<<B> |  | 3 at 4 half 0 byte 5
A<<T>() => ?> |  | 20 at 7 half 0 byte 11
A | |  | 3 at 2 half 0 byte 3
{ a b } |  | 3 at 2 half 0 byte 4
(*64 A |  | 5 at 64 half 0 byte 64
(*63 A<<T>() => T> |  | 5 at 64 half 1 byte 65
A<B> | room 0 | 8 at 3 half 0 byte 3
A<<T>() => T> | room 0 | 8 at 3 half 0 byte 4
A<> | records 0 | 9 at 3 half 0 byte 3
A.b | key 5 | 11 at 0 half 0 byte 0
"""

# Rows for reserved names (02, W3): diagnostics and the end, or a refusal.
RESERVED = r"""
<string>(x: string) => string |  | 13 on 1 to 7; end 10
<any, T, undefined>() => A |  | 13 on 1 to 4, 13 on 9 to 18; end 11
T extends infer never ? X : Y |  | 13 on 16 to 21; end 8
<abstract>() => A |  | end 7
<out>() => A |  | end 7
<any extends B<>>() => C |  | 13 on 1 to 4, 2 on 14 to 16; end 11
<T extends infer symbol>() => A |  | 13 on 17 to 23; end 10
(infer string extends A<> ? X : Y) |  | 13 on 7 to 13, 2 on 23 to 25; end 12
(infer A extends infer any ? X : Y) |  | 13 on 23 to 26; end 11
T extends infer object extends U ? X : Y |  | 13 on 16 to 22; end 10
{ [string in K]: A } |  | end 9
{ m<bigint>(string): A } |  | 13 on 4 to 10; end 11
new <number = B<>>() => A |  | 13 on 5 to 11, 2 on 15 to 17; end 12
<boolean, never, unknown>() => A |  | 13 on 1 to 8, 13 on 10 to 15, 13 on 17 to 24; end 11
<string>() => A | records 0 | 9 at 2
<string>() => A | room 0 | 8 at 2
<string extends ?>() => A | records 0 | 9 at 2
T extends infer never extends ? : Y | records 0 | 9 at 4
"""

# Rows for diagnostics of two places (02, W6).
BOTH = r"""
[A?, B] |  | 4 on 5 to 6 and 1 to 3; end 6
[a?: A, B] |  | 4 on 8 to 9 and 1 to 6; end 8
[A?, B?, C, D] |  | 4 on 9 to 10 and 5 to 7, 4 on 12 to 13 and 5 to 7; end 11
[A?, ...B[], C] |  | 4 on 13 to 14 and 1 to 3; end 11
[...a?: A, B] |  | 7 on 1 to 9; end 9
[A?, [B?, C], D] |  | 4 on 10 to 11 and 6 to 8, 4 on 5 to 12 and 1 to 3, 4 on 14 to 15 and 1 to 3; end 13
[(A[]?), B] |  | 4 on 9 to 10 and 2 to 6; end 10
[(A[]?), B] | brackets kept | end 10
[a?: A?, b: B] |  | 6 on 5 to 7, 4 on 9 to 13 and 1 to 7; end 11
[A, B?] |  | end 6
[A?, b: ...B] |  | 5 on 8 to 12, 4 on 5 to 12 and 1 to 3; end 9
[A?, B, C?, D] |  | 4 on 5 to 6 and 1 to 3, 4 on 12 to 13 and 8 to 10; end 11
A<> |  | 2 on 1 to 3; end 3
new (this: A) => B |  | 3 on 5 to 12; end 8
[A?, B] | records 0 | 9 at 5
{ [a?: A]: B } |  | 8 on 4 to 5; end 10
"""


# Rows for trials and the type rules that are entered (02, W4): a text, and the count or the refusal.
def tried(n, inner="A"): return "(infer A extends " * n + inner + " ? X : Y)" * n
def bound(n, inner="A"): return "(infer A extends " * n + inner + ")" * n


TRIALS = ([("A", 1), ("(infer U extends number ? X : Y)", 6)] + [(tried(n), 5 * 2 ** n - 4) for n in range(5)] + [(tried(5), (28, 19)), (bound(4), 9), (bound(5), (28, 19)),
    ("infer U\nextends A ? X : Y", 2), ("infer U\nextends A<B, C, D> ? X : Y", 5), ("(" * 53 + bound(5) + ")" * 53, (28, 72)), ("(" * 54 + bound(5) + ")" * 54, (28, 73)),
    ("(" * 55 + bound(5) + ")" * 55, (5, 72)), ("T extends " + "infer A extends " * 6 + "B ? X : Y", 10),
    (tried(4, "A<" + ", ".join("B" * 3000) + ">"), 48076), (tried(4, "`" + "${B}" * 3000 + "`"), 48076), ("T extends U ? : V", (3, 4)),
    ("{ a: infer U\nextends\nB\n?: C }", 4), ("{ a: infer U\nextends\nB?(): C }", 4), ("{ a: infer U\nextends\ninfer\nV\nextends\nW\n?: C }", 5), ("{ a: infer U\nextends: V }", (3, 6)),
    ("[" + ", ".join(["infer A extends B"] * 5) + "]", 11), (bound(4, "[" + ", ".join(["infer A extends B"] * 2) + "]"), (28, 19))])


def objects(rows=OBJECTS):
    """Text, lent words, preserve_parens and the numbers that it comes to, of each row."""
    for line in rows.strip().split("\n"):
        t, how, says = re.match(r"(.*) \| (.*?) ?\| (.*)$", line).groups()
        t = re.sub(r"^\(\*(\d+) ", lambda x: "(" * int(x[1]), t)
        lent = list(AMPLE)
        if how.startswith("key"): lent[3] = int(how.split()[1])
        if how.startswith("room"): lent[0] = 4 * int(how.split()[1])
        if how.startswith("records"): lent[2] = D * int(how.split()[1])
        yield t.replace("#", "\n"), tuple(lent), how == "brackets kept", says


def numbers(x):
    """An answer of rules_model.read in the words of OBJECTS, its key apart."""
    if x[0][0]: return "%d at %d" % x[0][:2], ""
    def note(n): return "%d on %d to %d" % tuple(n[:3]) + (" and %d to %d" % tuple(n[3:]) if n[4] else "")
    notes = ", ".join(note(x[3][i:i + D]) for i in range(0, len(x[3]), D))
    return (notes + "; " if notes else "") + "end %d" % x[0][5], x[4].hex(" ").upper()


def object_rows(v, rows=OBJECTS, item="W1"):
    """The rows, each as it says."""
    for t, lent, parens, says in objects(rows):
        said, key = numbers(read(t.encode(), m.cut(t), 0, parens, lent))
        assert says in (said, said + "; key " + key), (t, says, said, key)
        v.add(item, t, lent, parens)


def reserved_rows(v):
    """The rows for reserved names."""
    object_rows(v, RESERVED, "W3")


def trial_rows(v):
    """The rows for trials."""
    for t, says in TRIALS:
        x = read(t.encode(), m.cut(t), 0, False, WIDE)[0]
        assert says == (x[7] if x[0] == 0 else x[:2]), (t[:200], says, x)
        v.add("W4", t, WIDE)


def both_rows(v):
    """The rows for diagnostics of two places."""
    object_rows(v, BOTH, "W6")


def place_rows(v):
    """The rows of places, each as it says."""
    for t, lent, parens, says in objects(PLACES):
        x = read(t.encode(), m.cut(t), 0, parens, lent)
        assert says == "%d at %d half %d byte %d" % x[0][:4], (t, says, x[0])
        v.add("W2", t, lent, parens)


def object_texts(v):
    """Texts of a grammar with object types, and copies damaged, from other starts, with other rooms."""
    for c in Cases(3, ObjectMaker).generated(1200):
        v.append(c)


def examples():
    """Items and text of each example."""
    for line in EXAMPLES.strip().split("\n"):
        items, texts = line.split(": ", 1)
        for t in texts.split(" ~ "):
            yield items, t.replace("#", "\n") if t != "#a" else t


def texts():
    """Each text of the examples once, if its templates end."""
    for t in dict.fromkeys(t for _, t in examples()):
        try:
            m.cut(t)
        except IndexError:
            continue
        yield t


def nested(n):
    """Texts in each of which n type rules open inside the first."""
    a = "A"
    return ("(" * n + a + ")" * n, "A<" * n + a + ">" * n, "[" * n + a + "]" * n, "() => " * n + a, "A[" * n + a + "]" * n,
            "`${" * n + a + "}`" * n, "{ [K in " * n + a + "]: B }" * n, "{ [K in A]: " * n + a + "}" * n, "{ [K in A as " * n + a + "] }" * n,
            "new (a: " * n + a + ") => B" * n, "(this: " * n + a + ") => B" * n, "<T = " * n + a + ">() => B" * n, "<T extends " * n + a + ">() => B" * n,
            "[...a: " * n + a + "]" * n, "this is " * n + a, "asserts x is " * n + a, "() => x is " * n + a, "import('m')<" * n + a + ">" * n,
            "A extends B ? " * n + a + " : B" * n, "A extends B ? C : " * n + a, "typeof a<" * n + a + ">" * n,
            "{ a: " * n + a + " }" * n, "{ a(): " * n + a + " }" * n, "{ (b: " * n + a + ") }" * n, "{ new <T = " * n + a + ">() }" * n,
            "{ [k: " * n + a + "]: B }" * n, "{ [k: A]: " * n + a + " }" * n,
            "A extends (" * (n // 2) + a + ") ? B : C" * (n // 2) if n % 2 == 0 else "(" + "A extends (" * (n // 2) + a + ") ? B : C" * (n // 2) + ")")


def lists(n):
    """Texts in each of which one list has n entries."""
    return ("|".join("A" * n), "&".join("A" * n), "[" + "A," * n + "]", "A<" + "A," * n + ">", "<" + "T," * n + ">() => A", "(" + "a," * n + ") => A",
            "A" + ".b" * (n - 1), "import('m')" + ".b" * n, "`" + "${A}" * n + "`",
            "{" + "a;" * n + "}", "{ m<" + "T," * n + ">() }", "{ (" + "a," * n + ") }")


def tall(h):
    """Texts whose node has the height h, by a chain of each kind of node, as a first and as a later child."""
    def k(n): return "keyof " * (n - 1) + "A"                               # of height n
    return (k(h), "A" + "[]" * (h - 1), "A" + "!" * (h - 1), "A" + "!" * (h - 2) + "?", "A" + "[B]" * (h - 1), "[" + k(h - 1) + "]", "[A, " + k(h - 1) + "]",
            "[" + k(h - 2) + "?]", "[..." + k(h - 2) + "]", "[a: " + k(h - 2) + "]", "A | " + k(h - 1) + " | B", "A & " + k(h - 1), "A<B, " + k(h - 1) + ">", "A[" + k(h - 1) + "]",
            "A extends " + k(h - 1) + " ? B : C", "A extends B ? C : " + k(h - 1), "T extends infer U extends " + k(h - 2) + " ? X : Y", "(infer U extends " + k(h - 1) + ")",
            "<T extends " + k(h - 2) + ">() => A", "<T = " + k(h - 2) + ">() => A", "(a: " + k(h - 2) + ") => A", "(this: " + k(h - 1) + ") => A", "() => " + k(h - 1),
            "new (a: " + k(h - 2) + ") => A", "{ [K in " + k(h - 1) + "] }", "{ [K in A as " + k(h - 1) + "] }", "{ [K in A]: " + k(h - 1) + " }", "`${A}${" + k(h - 1) + "}`",
            "this is " + k(h - 1), "asserts x is " + k(h - 1), "typeof a<" + k(h - 1) + ">", "import('m')<" + k(h - 1) + ">",
            "{ a; b: " + k(h - 2) + " }", "{ a(): " + k(h - 2) + " }", "{ (this: " + k(h - 2) + ") }", "{ new <T = " + k(h - 3) + ">() }", "{ [k: " + k(h - 2) + "]: A }", "{ [k: A]: " + k(h - 2) + " }")


class Vectors(list):
    def add(self, items, text, lent=AMPLE, parens=False, start=0, words=None):
        t = text.encode("latin1") if isinstance(text, str) else text
        if words is None:
            words = m.cut(text)
        self.append((items, t, words, start, parens, lent + AMPLE[len(lent):]))

    def both(self, items, text, lent=AMPLE):
        for parens in (False, True):
            self.add(items, text, lent, parens)


def least(text, parens=False):
    """The fewest words for nodes, names and diagnostics with which a text is read as with more, and the bytes of its key; or
    None if it is refused."""
    t, words = text.encode("latin1"), m.cut(text)
    x = read(t, words, 0, parens, WIDE)
    if x[0][0] != 0:
        return None
    n, k, d, s = x[0][1:5]
    while read(t, words, 0, parens, (4 * n, k) + WIDE[2:])[0][0] == 8:
        n += 1
    while read(t, words, 0, parens, (4 * n, k, D * d, s))[0][0] == 9:
        d += 1
    return 4 * n, k, D * d, s


def rows(v):
    """The twelve rows, with what 01 says of them in numbers."""
    says = {"A": "104004000504", "string[]": "11c270", "[A?, ...B[]]": [], "[a?: A, B]": [4], "A\n[B]": (1, 0), "T extends U ? : V": (3, 4),
            "new (this: A) => B": [3]}
    for t in m.ROWS:
        x = m.read(t.encode(), m.cut(t), 0, False)
        assert says.get(t) in (None, x[1:], *(() if x[0] == "refused" else (x[4].hex(), [n[0] for n in x[2]], x[3])))
        v.add("row", t)


def by_example(v):
    """Each example under both options; where it is read, with just enough room and with one too few of each in turn."""
    done = set()
    for items, t in examples():
        try:
            m.cut(t)
        except IndexError:                                                  # a template that does not end
            unfinished(v, items, t)
            continue
        v.both(items, t)
        if t in done or least(t) is None:
            continue
        done.add(t)
        n, k, d, s = least(t)
        for a in (n, n - 1):
            for b in (k, k - 1):
                for c in (d, d - 1):
                    if min(b, c) >= 0:
                        v.add(items + " X13 X14 X16 X17", t, (a, b, c, s))


def unfinished(v, items, t):
    """A template whose last piece the text does not hold: cut as if it ended, and the last token left out."""
    whole = t + ("}`" if t.count("{") > t.count("}") else "`")
    w = m.cut(whole)[:-1]
    k, nl, _, n, b = m.unpack(w[-1])
    v.add(items, whole[:b], AMPLE, False, 0, w[:-1] + [m.pack(0, 0, b, 0)])


def by_kind(v):
    """Each kind alone, after `A?`, after `A[` and after `(`: who starts a type, and what no rule takes (R25, R26, R35, X3)."""
    spelled = {1: "w", 2: "1", 3: "1n", 4: "'s'", 5: "`t`", 6: "`h${", 7: "}m${", 8: "}t`", 41: "@", 83: "public", 107: "class"}
    spelled.update((k, s.decode()) for k, s in m.SPELL.items())
    for before in ("", "A?", "A[", "(", "A?(", "A?-", "(a"):
        for k in sorted(spelled):
            s = before + spelled[k]
            w = m.cut(before)[:-1]
            for tail in ("", "]" if before == "A[" else ")"):
                x = w + [m.pack(k, 0, len(before), len(spelled[k]))] + [m.pack(m.K[c], 0, len(s), 1) for c in tail]
                v.add("R8 R25 R26 R28 R35 X3", s + tail, AMPLE, False, 0, x + [m.pack(0, 0, len(s + tail), 0)])


def mapped(v):
    """Each pair of modifiers of a mapped type, with and without a name type, a type and a semicolon."""
    for ro in ("", "readonly ", "+readonly ", "-readonly "):
        for q in ("", "?", "+?", "-?"):
            for name in ("", " as U"):
                for t in ("", ": V"):
                    v.add("R37", "{ %s[K in T%s]%s%s%s }" % (ro, name, q, t, ";" if name else ""))


def elements(v):
    """Each form of a tuple's element, alone and after an optional one."""
    for dots in ("", "..."):
        for label in ("", "a: ", "a?: ", "a: ...", "a?: ..."):
            for t in ("A", "A?", "(A?)", "A[]"):
                for before in ("", "B?, ", "b?: B, ", "...B, "):
                    v.both("R37 R38 R39 N5 N6 N7 N8", "[%s%s%s%s]" % (before, dots, label, t))


def deep(v):
    for n in (63, 64):
        for t in nested(n):
            v.add("X12", t, WIDE)
    v.add("X12 X3", "(" * 64 + "A", WIDE)
    for n in (31, 32):
        v.add("X12", "(a: " * n + "() => " * n + "A" + ") => B" * n, WIDE)
        v.add("X12 R36", "A<<T>() => " * n + "A" + ">" * n, WIDE)
    v.add("X12 R23", "(infer U extends " * 31 + "A" + ")" * 31, WIDE)
    v.add("X12 R23", "(infer U extends " * 32 + "A" + ")" * 32, WIDE)
    v.add("X12 R23", "(infer U extends " * 6 + "A" + " ? X : Y)" * 6, WIDE)


def high(v):
    for h in (256, 257):
        for t in tall(h):
            v.add("X13 X19 X20", t, WIDE)
    for h in (256, 257):                                                    # brackets are nodes, or are not
        v.both("X13 X19 R33", "(" + "keyof " * (h - 2) + "A)", WIDE)
    v.add("X21 X13 X3", "keyof " * 300 + ")", WIDE)
    t, words = keyofs(13106)                                                # as many as a text has bytes for
    v.add("X21 X13", t, WIDE, False, 0, words)


def long(v):
    for t in lists(4095):
        v.add("X13 R19 R41", t, WIDE)
    for t in lists(4096):                                                   # and no node left: 7 comes before 8
        v.add("X13 X17 R19 R41", t, (4 * 4096,) + WIDE[1:])
    v.add("X13 R35", "A" + ".b" * 4999, WIDE)
    bad = ["A"] * 4096
    bad[3999] = ")"
    v.add("X21 X3", "|".join(bad), WIDE)


def short_of_room(v):
    """Room and records at and one below what is needed where more is in use than is left at the end."""
    for room in range(9):
        v.add("R17 X22 X20", "new (this: A<B, C>) => D", (4 * room, 9, 3 * D))
        v.add("R17 X22 X20", "new (this: A<B, C>, d: E) => F", (4 * room, 9, 3 * D))
        v.add("R23 X22", "(infer U extends A<B, C> ? X : Y)", (4 * room, 9, 3 * D))
        v.add("R23 X22", "(infer U extends A<B, C>)", (4 * room, 9, 3 * D))
        v.add("R22 R23 X22", "infer U\nextends A<B, C> ? X : Y", (4 * room, 9, 3 * D))      # reads `infer U`, and the trial held three nodes
        v.add("R22 R23 X22 X14", "infer U\nextends [A<>, B<>] ? X : Y", (40, 9, D * room))
        v.add("R22 R23 X22 X16", "infer U\nextends A.b.c ? X : Y", (40, room, 3 * D))
        v.add("R23 X22", "(infer U\nextends A<B, C> ? X : Y)", (4 * room, 9, 3 * D))
        v.add("R23 X22", "(infer U extends [A, B, C, D] ? X : Y)", (4 * room + 3, 9, 3 * D))
        v.add("R27 X20", "this is A", (4 * room, 9, 3 * D))
        v.add("R16 X20", "(this: A) => B", (4 * room, 9, 3 * D))
        v.add("X20", "<T>(a) => B", (4 * room, 9, 3 * D))
        v.add("X16", "(infer U extends A.b<C.d> ? X.y : Z)", (64, room, 3 * D))
        v.add("X16 R17", "new <T>(this: A.b<C>, d: E.f) => G", (64, room, 3 * D))
        v.add("X14 N8", "[a?: ...A?, ...b?: B<>, C]", (64, 9, D * room))
        v.add("X14 N8", "[a?: ...A?, ...b?: B<>, C]", (64, 9, D * room + D - 1))
    v.add("X16", "A" + ".b" * 100, (4, 101, 0))
    v.add("X16", "A" + ".b" * 100, (4, 100, 0))
    v.add("X16 X17", "A" + ".b" * 100 + " B)", (4, 0, 0))
    for lent in ((0, 0, 0), (1, 0, 0), (3, 1, 1), (4, 0, 0), (4, 1, 0), (7, 1, D - 1), (0, 1, D)):
        for t in ("A", "any", "A<>", "()", "A["):
            v.add("X13 X14 X16 X17", t, lent)


def short_of_key(v):
    """Bytes for the key: one too few, none, one, and one too many; too few for names as well."""
    for t in texts():
        if least(t) is None:
            continue
        n, k, d, s = least(t)
        v.add("X16", t, (n, k, d, s - 1))
        v.add("X16", t, (n + 1, k + 1, d + 1, s + 1))
        if len(t) < 6:
            for few in (0, 1, s // 2):
                v.add("X16", t, (n + 3, k, d + 2, few))
                v.add("X16 X17", t, (n, max(0, k - 1), d, few))
                v.add("X17", t, (n - 1, k, d, few))
    for more in (-2, -1, 0):                                                # about the most that a key may have
        v.add("X16", "A", AMPLE[:3] + (WIDE[3] + more,))


def many_notes(v):
    """32 and 33 diagnostics, and as many records, one more and one fewer."""
    for n in (31, 32, 33):
        for c in (0, D, 31 * D, 32 * D - 1, 32 * D, 33 * D - 1, 33 * D, 34 * D):
            v.add("X14 N3", "[" + "A<>," * n + "]", (640, 40, c))
        v.add("X14 X23 N10", "(infer U extends [" + "A<>," * n + "] ? X : Y)", (640, 80, 40 * D))
        v.add("X14 N4 N10", "new (this: [" + "A<>," * (n - 1) + "]) => B", (640, 80, 40 * D))
        v.add("X14 N10", "new (this: [" + "A<>," * n + "]) => B", (640, 80, 40 * D))
        v.add("X14 N5", "[A?," + "B," * n + "]", (640, 80, 40 * D))
        v.add("X14 N2", "[" + "A<<>() => B>," * n + "]", (640, 80, 40 * D))
        v.add("X14 N6", "[" + "a: ...B," * n + "]", (640, 80, 40 * D))
        v.add("X14 N7", "[" + "a: B?," * n + "]", (640, 80, 40 * D))
        v.add("X14 N8", "[" + "...a?: B," * n + "]", (640, 80, 40 * D))


def in_a_trial(v):
    """Each refusal inside a trial that a `?` would drop (X23)."""
    def trial(t): return "(infer U extends " + t + " ? X : Y)"
    v.add("X23 X3", trial("[A B]"))
    v.add("X23 X5", trial("A<"))
    v.add("X23 X4", trial("{ a: B }"))
    v.add("X23 X7", trial("(a = b) => c"))
    for n in (61, 62, 63):
        v.add("X23 X12", trial("(" * n + "A" + ")" * n), WIDE)
    for n in (254, 255, 256):
        v.add("X23 X13", trial("keyof " * n + "A"), WIDE)
    v.add("X23 X13", trial("|".join("A" * 4096)), WIDE)
    for room in range(3, 10):
        v.add("X23 X13", trial("[A, B, C]"), (4 * room, 20, 3 * D))
        v.add("X23 X13", trial("[A, B, C]"), (4 * room - 1, 20, 3 * D))
    for c in (0, D, 2 * D, 3 * D - 1, 3 * D):
        v.add("X23 X14", trial("[A<>, B<>, C<>]"), (99, 20, c))
    v.add("X16 X22", trial("A.b.c.d"), (99, 3, 3 * D))
    v.add("X16 X22", trial("A.b.c.d"), (99, 2, 3 * D))


def orders(v):
    """Two refusals at one node: 7 before 6 before 8, 9 before the node's own, a parameter's before a `=` (X17)."""
    top = "keyof " * 255 + "A"
    v.add("X17", "A<" + "A," * 4095 + top + ">", WIDE)                      # 7 and 6
    for room in (255, 256, 257):
        v.add("X17", "keyof " + top, (4 * room, 9, 3 * D))                  # 6 and 8
    for lent in ((0, 9, 0), (0, 9, D), (4, 9, 0), (4, 0, D), (0, 0, 0), (4, 0, 0), (4, 1, D)):
        v.add("X17", "A<>", lent)                                           # 9, 8, 11
        v.add("X17", "(a = b) => c", lent)                                  # 8 before 4
        v.add("X17 N4", "new (this) => A", lent)
        v.add("X17 N7 N8", "[...a?: ...B?]", lent)
    v.add("X17 X2", b"A", AMPLE, False, 9, [m.pack(9, 0, 0, 1), m.pack(0, 0, 1, 0)])    # 1 and 2
    v.add("X17 X16", "A.b.c )", (4, 1, 0))
    v.add("X17 X3", "[A.b.c, ", (99, 1, 0))


def bad_lists(v):
    """Refusal 1: text and tokens at and over their limits, no tokens, and starts."""
    one = [m.pack(1, 0, 0, 1), m.pack(0, 0, 1, 0)]
    v.add("X1", b"", AMPLE, False, 0, [])
    v.add("X1", b"A", AMPLE, False, 0, [])
    v.add("X1 X3", b"", AMPLE, False, 0, [m.pack(0, 0, 0, 0)])
    for start in (0, 1, 2, 3, 1 << 31, (1 << 32) - 1):
        v.add("X1", b"A", AMPLE, False, start, one)
    for n in (m.TEXT, m.TEXT + 1):
        s = b"'" + b"s" * (n - 2) + b"'"
        v.add("X1", s, AMPLE, False, 0, [m.pack(4, 0, 0, min(n, m.TEXT)), m.pack(0, 0, n, 0)])
    for n in (m.TOKENS, m.TOKENS + 1):                                      # a token a byte, and the Eof
        t = "A&A&A&A&A&A|" * 1365 + "A"
        v.add("X1", t + "!" * (n - 1 - len(t)), WIDE)
    t = "A extends B ? C : D"
    for start in range(len(m.cut(t)) + 2):
        v.add("X1 X18", t, AMPLE, False, start)
    for start in range(5):
        v.add("X1 X18 R36", "A<<T>() => T>", AMPLE, False, start)


def bad_words(v):
    """Refusal 2: each way in which a word is bad, the lowest of two, and a last word that is no Eof."""
    t = "A<B, keyof C>"
    b, w = t.encode(), m.cut(t)
    def put(*changes):
        x = list(w)
        for i, y in changes:
            x[i] = y
        v.add("X2", b, AMPLE, False, 0, x)
    for i in range(len(w)):
        k, nl, _, n, s = m.unpack(w[i])
        for y in (m.pack(9, nl, s, n), m.pack(255, nl, s, n), w[i] | 1 << 49, w[i] | 1 << 54, m.pack(k, nl, s + 1, n), m.pack(k, nl, s, n + 1), m.pack(k, nl, s, 65536),
                  m.pack(k, nl, max(0, s - 1), n), m.pack(0, nl, s, 0), m.pack(k, nl, s, 0), m.pack(16, nl, s, n), m.pack(64, nl, s, n), m.pack(41, nl, s, n), m.pack(k, 1, s, n)):
            put((i, y))
        put((i, w[i] | 1 << 50), (len(w) - 2, 0))
    for n in range(1, len(w)):
        v.add("X2", b, AMPLE, False, 0, w[:n])
    v.add("X2", b, AMPLE, False, 0, w + [w[-1]])
    v.add("X2", b"a\\b", AMPLE, False, 0, [m.pack(1, 0, 0, 3), m.pack(0, 0, 3, 0)])
    v.add("X2", b"any", AMPLE, False, 0, [m.pack(1, 0, 0, 3), m.pack(0, 0, 3, 0)])
    v.add("X2 R28", b"any", AMPLE, False, 0, [m.pack(2, 0, 0, 3), m.pack(0, 0, 3, 0)])


def generated(v):
    """Texts of a grammar, and copies damaged, from other starts, with other rooms, and with bad words."""
    for c in Cases(1).generated(2600):
        v.append(c)


def taken(v):
    """The stored keys, through the open call."""
    for op, key, rooms in keys_vectors.cases():
        v.append(("X15", key, rooms[:3]))


def stored():
    v = Vectors()
    for part in (rows, by_example, by_kind, mapped, elements, deep, high, long, short_of_room, many_notes, in_a_trial, orders, bad_lists, bad_words,
                 generated, object_rows, object_texts, place_rows, reserved_rows, both_rows, trial_rows, short_of_key, taken):
        part(v)
    missing = set(ITEMS) - set(i for c in v for i in c[0].split())
    assert not missing, missing
    return v


def listed(item):
    for i, c in enumerate(stored()):
        if item is None or item in c[0].split():
            what = repr(c[1].decode("latin1")[:100]) if len(c) > 3 else c[1][:50].hex()
            print(i, c[0], "|", *("start %d parens %d" % c[3:5] if len(c) > 3 else "key", "lent", *c[-1], "|"), *expected(c), "|", what)


def main():
    if sys.argv[1:2] == ["--list"]:
        return listed(sys.argv[2] if len(sys.argv) > 2 else None)
    if sys.argv[1:2] == ["--objects"]:
        v = Vectors()
        object_rows(v)
        return print("%d rows for object types, as they say" % len(v))
    c = stored()
    data = b"".join(record(x, expected(x)) for x in c)
    written("rows", data, ["%d vectors, 0 different" % len(c)], "%d records, %d bytes" % (len(c), len(data)))


if __name__ == "__main__":
    main()
