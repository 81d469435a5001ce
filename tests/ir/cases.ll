; Modules for tests/ir/run.py: each is one that tools/check_ir.py has to pass or to refuse, with the words of its refusal. Behind ';; as written'
; stands what it was before tools/flat.py, if the case has that.

;; two addresses subtracted, and the difference compared with a length
define internal void @"copy"(ptr noundef %a0, ptr noundef %a1, i64 noundef %a2) #0 {
start:
  %r0 = ptrtoint ptr %a1 to i64
  %r1 = ptrtoint ptr %a0 to i64
  %r2 = sub i64 %r0, %r1
  %r3 = icmp ult i64 %r2, %a2
  br i1 %r3, label %inside.1, label %apart.2

apart.2:                                          ; preds = %start
  call void @llvm.memmove.p0.p0.i64(ptr %a1, ptr %a0, i64 %a2, i1 false)
  ret void

inside.1:                                         ; preds = %start
  call void @llvm.trap()
  unreachable
}

;; pairs handed on by value, and a table lent
@static.0 = private unnamed_addr constant [4 x i8] c"\01\00;\22", align 4

define internal { ptr, i64 } @"pair of"(ptr noundef %a0, i1 noundef zeroext %a1) #0 {
start:
  %r0 = load i64, ptr %a0, align 8, !range !0, !noundef !1
  %r1 = insertvalue { ptr, i64 } poison, ptr %a0, 0
  %r2 = insertvalue { ptr, i64 } %r1, i64 %r0, 1
  ret { ptr, i64 } %r2
}

define void @f(ptr noundef %a0) #0 {
start:
  %r0 = alloca ptr, align 8
  %r1 = alloca [16 x i8], align 8
  %r2 = call { ptr, i64 } @"pair of"(ptr @static.0, i1 false)
  %r3 = extractvalue { ptr, i64 } %r2, 0
  %r4 = extractvalue { ptr, i64 } %r2, 1
  store ptr %r3, ptr %r0, align 8
  %r5 = load ptr, ptr %r0, align 8
  store ptr %r5, ptr %r1, align 8
  %r6 = getelementptr i8, ptr %r1, i64 8
  store i64 %r4, ptr %r6, align 8
  call void @llvm.memmove.p0.p0.i64(ptr %a0, ptr %r1, i64 16, i1 false)
  %r7 = load ptr, ptr %a0, align 8
  %r8 = load { i8, i64 }, ptr %r7, align 8
  ret void
}

!0 = !{i64 0, i64 2}
!1 = !{}

;; an address subtracted from a number
; refused: a number of a pointer: %r0 = ptrtoint ptr %a0 to i64
define void @f(ptr noundef %a0, i64 noundef %a1) #0 {
start:
  %r0 = ptrtoint ptr %a0 to i64
  %r1 = sub i64 %a1, %r0
  %r2 = icmp ult i64 %r1, 8
  ret void
}

;; an address read in a block that stands before
; refused: a number of a pointer: %r0 = ptrtoint ptr %a0 to i64
define i64 @f(ptr noundef %a0, ptr noundef %a1) #0 {
start:
  br label %later

before:                                           ; preds = %later
  ret i64 %r0

later:                                            ; preds = %start
  %r0 = ptrtoint ptr %a0 to i64
  %r1 = ptrtoint ptr %a1 to i64
  %r2 = sub i64 %r0, %r1
  %r3 = icmp ult i64 %r2, 8
  br label %before
}

;; an address under its other name
; refused: not a listed form: %r4 = phi i64 [ %"r0", %start ]
define i64 @f(ptr noundef %a0, ptr noundef %a1) #0 {
start:
  %r0 = ptrtoint ptr %a0 to i64
  %r1 = ptrtoint ptr %a1 to i64
  %r2 = sub i64 %r0, %r1
  %r3 = icmp ult i64 %r2, 8
  br label %next

next:                                             ; preds = %start
  %r4 = phi i64 [ %"r0", %start ]
  ret i64 %r4
}

;; an address in a constant
; refused: not a listed form: %r0 = phi i64 [ ptrtoint (ptr @static.0 to i64), %start ]
@static.0 = private unnamed_addr constant [4 x i8] c"abcd", align 4

define i64 @f() #0 {
start:
  br label %next

next:                                             ; preds = %start
  %r0 = phi i64 [ ptrtoint (ptr @static.0 to i64), %start ]
  ret i64 %r0
}

;; a pointer from a constant
; refused: not a listed form: %r0 = phi ptr [ inttoptr (i64 4294967296 to ptr), %start ]
define ptr @f() #0 {
start:
  br label %next

next:                                             ; preds = %start
  %r0 = phi ptr [ inttoptr (i64 4294967296 to ptr), %start ]
  ret ptr %r0
}

;; a pointer from a number
; refused: not a listed form: %r0 = inttoptr i64 %a0 to ptr
define ptr @f(i64 noundef %a0) #0 {
start:
  %r0 = inttoptr i64 %a0 to ptr
  ret ptr %r0
}

;; a difference that is kept
; refused: a number of a pointer: %r0 = ptrtoint ptr %a0 to i64
; refused: a number of a pointer: %r1 = ptrtoint ptr %a1 to i64
define void @f(ptr noundef %a0, ptr noundef %a1, ptr noundef %a2) #0 {
start:
  %r0 = ptrtoint ptr %a0 to i64
  %r1 = ptrtoint ptr %a1 to i64
  %r2 = sub i64 %r0, %r1
  store i64 %r2, ptr %a2, align 8
  ret void
}

;; the half of a difference
; refused: a number of a pointer: %r0 = ptrtoint ptr %a0 to i64
; refused: a number of a pointer: %r1 = ptrtoint ptr %a1 to i64
define void @f(ptr noundef %a0, ptr noundef %a1) #0 {
start:
  %r0 = ptrtoint ptr %a0 to i64
  %r1 = ptrtoint ptr %a1 to i64
  %r2 = sub i64 %r0, %r1
  %r3 = lshr i64 %r2, 32
  %r4 = icmp ult i64 %r3, 8
  ret void
}

;; the sum of two addresses
; refused: a number of a pointer: %r0 = ptrtoint ptr %a0 to i64
; refused: a number of a pointer: %r1 = ptrtoint ptr %a1 to i64
define void @f(ptr noundef %a0, ptr noundef %a1) #0 {
start:
  %r0 = ptrtoint ptr %a0 to i64
  %r1 = ptrtoint ptr %a1 to i64
  %r2 = add i64 %r0, %r1
  %r3 = icmp ult i64 %r2, 8
  ret void
}

;; an address compared
; refused: a number of a pointer: %r0 = ptrtoint ptr %a0 to i64
define void @f(ptr noundef %a0) #0 {
start:
  %r0 = ptrtoint ptr %a0 to i64
  %r1 = icmp ult i64 %r0, 4294967296
  ret void
}

;; half of an address
; refused: not a listed form: %r0 = ptrtoint ptr %a0 to i32
define void @f(ptr noundef %a0) #0 {
start:
  %r0 = ptrtoint ptr %a0 to i32
  ret void
}

;; an address that was left
; refused: not a listed form: %r0 = ptrtoaddr ptr %a0 to i64
define void @f(ptr noundef %a0) #0 {
start:
  %r0 = ptrtoaddr ptr %a0 to i64
  ret void
}

;; two pointers compared
; refused: not a listed form: %r0 = icmp eq ptr %a0, %a1
define void @f(ptr noundef %a0, ptr noundef %a1) #0 {
start:
  %r0 = icmp eq ptr %a0, %a1
  ret void
}

;; a pair with a pointer loaded at once
; refused: not a listed form: %r0 = load { ptr, i64 }, ptr %a0, align 8
define void @f(ptr noundef %a0) #0 {
start:
  %r0 = load { ptr, i64 }, ptr %a0, align 8
  ret void
}

;; a pair with a word of metadata behind it
; refused: not a listed form: %r0 = load { i8, ptr }, ptr %a0, align 8, !noundef !0
define void @f(ptr noundef %a0) #0 {
start:
  %r0 = load { i8, ptr }, ptr %a0, align 8, !noundef !0
  ret void
}

!0 = !{}

;; a pair that must be loaded
; refused: not a listed form: %r0 = load volatile { ptr, i64 }, ptr %a0, align 8
define void @f(ptr noundef %a0) #0 {
start:
  %r0 = load volatile { ptr, i64 }, ptr %a0, align 8
  ret void
}

;; a pair with no alignment
; refused: not a listed form: %r0 = load { ptr, i64 }, ptr %a0
define void @f(ptr noundef %a0) #0 {
start:
  %r0 = load { ptr, i64 }, ptr %a0
  ret void
}

;; a pair from a quoted place
; refused: not a listed form: %r0 = load { ptr, i64 }, ptr %"a0", align 8
define void @f(ptr noundef %a0) #0 {
start:
  %r0 = load { ptr, i64 }, ptr %"a0", align 8
  ret void
}

;; a pair from a table
; refused: not a listed form: %r0 = load { ptr, i64 }, ptr @static.0, align 8
@static.0 = private unnamed_addr constant [16 x i8] c"0123456789abcdef", align 8

define void @f() #0 {
start:
  %r0 = load { ptr, i64 }, ptr @static.0, align 8
  ret void
}

;; three parts at once
; refused: not a listed form: %r0 = load { i8, i64, ptr }, ptr %a0, align 8
define void @f(ptr noundef %a0) #0 {
start:
  %r0 = load { i8, i64, ptr }, ptr %a0, align 8
  ret void
}

;; two pointers at once
; refused: not a listed form: %r0 = load [2 x ptr], ptr %a0, align 8
define void @f(ptr noundef %a0) #0 {
start:
  %r0 = load [2 x ptr], ptr %a0, align 8
  ret void
}

;; a pair by the name of its type
; refused: not a listed line: %pair = type { ptr, i64 }
; refused: not a listed form: %r0 = load %pair, ptr %a0, align 8
%pair = type { ptr, i64 }

define void @f(ptr noundef %a0) #0 {
start:
  %r0 = load %pair, ptr %a0, align 8
  ret void
}

;; a pair stored at once
; refused: not a listed form: store { ptr, i64 } %r0, ptr %a0, align 8
define void @f(ptr noundef %a0) #0 {
start:
  %r0 = insertvalue { ptr, i64 } poison, ptr %a0, 0
  store { ptr, i64 } %r0, ptr %a0, align 8
  ret void
}

;; a pair where two ways meet
; refused: not a listed form: %r1 = phi { ptr, i64 } [ %r0, %start ]
define void @f(ptr noundef %a0) #0 {
start:
  %r0 = insertvalue { ptr, i64 } poison, ptr %a0, 0
  br label %next

next:                                             ; preds = %start
  %r1 = phi { ptr, i64 } [ %r0, %start ]
  ret void
}

;; a pair that is chosen
; refused: not a listed form: %r1 = select i1 %a1, { ptr, i64 } %r0, { ptr, i64 } poison
define void @f(ptr noundef %a0, i1 noundef %a1) #0 {
start:
  %r0 = insertvalue { ptr, i64 } poison, ptr %a0, 0
  %r1 = select i1 %a1, { ptr, i64 } %r0, { ptr, i64 } poison
  ret void
}

;; a pair that has room
; refused: not a listed form: %r0 = alloca { ptr, i64 }, align 8
define void @f() #0 {
start:
  %r0 = alloca { ptr, i64 }, align 8
  ret void
}

;; the place behind a pair
; refused: not a listed form: %r0 = getelementptr { ptr, i64 }, ptr %a0, i64 1
define void @f(ptr noundef %a0) #0 {
start:
  %r0 = getelementptr { ptr, i64 }, ptr %a0, i64 1
  ret void
}

;; a pair as a constant
; refused: not a listed form: ret { ptr, i64 } { ptr inttoptr (i64 4294967296 to ptr), i64 0 }
define { ptr, i64 } @f() #0 {
start:
  ret { ptr, i64 } { ptr inttoptr (i64 4294967296 to ptr), i64 0 }
}

;; a pair handed on as a place
; refused: not a listed line: define internal i64 @"g"(ptr noundef byval({ ptr, i64 }) %a0) #0 {
; refused: not a listed line:   %r0 = getelementptr i8, ptr %a0, i64 8
; refused: not a listed line:   %r1 = load i64, ptr %r0, align 8
; refused: not a listed line:   ret i64 %r1
define internal i64 @"g"(ptr noundef byval({ ptr, i64 }) %a0) #0 {
start:
  %r0 = getelementptr i8, ptr %a0, i64 8
  %r1 = load i64, ptr %r0, align 8
  ret i64 %r1
}

;; a table of pointers
; refused: not a listed line: @static.0 = private unnamed_addr constant [1 x ptr] [ptr @f], align 8
@static.0 = private unnamed_addr constant [1 x ptr] [ptr @f], align 8

define void @f() #0 {
start:
  ret void
}

;; a table with a pointer between numbers
; refused: not a listed line: @static.0 = private unnamed_addr constant <{ [8 x i8], ptr }> <{ [8 x i8] c"01234567", ptr @static.1 }>, align 8
@static.0 = private unnamed_addr constant <{ [8 x i8], ptr }> <{ [8 x i8] c"01234567", ptr @static.1 }>, align 8
@static.1 = private unnamed_addr constant [4 x i8] c"abcd", align 4

;; a table that is written
; refused: not a listed line: @static.0 = private unnamed_addr global [4 x i8] c"abcd", align 4
@static.0 = private unnamed_addr global [4 x i8] c"abcd", align 4

;; a call of the processor's
; refused: not a listed line: declare ptr @llvm.ptrmask.p0.i64(ptr, i64)
; refused: not a listed form: %r0 = call ptr @"llvm.ptrmask.p0.i64"(ptr %a0, i64 -4294967296)
declare ptr @llvm.ptrmask.p0.i64(ptr, i64)

define void @f(ptr noundef %a0) #0 {
start:
  %r0 = call ptr @"llvm.ptrmask.p0.i64"(ptr %a0, i64 -4294967296)
  ret void
}

;; a function from elsewhere
; refused: not a listed line: declare i64 @strlen(ptr)
; refused: no such function: %r0 = call i64 @strlen(ptr %a0)
declare i64 @strlen(ptr)

define void @f(ptr noundef %a0) #0 {
start:
  %r0 = call i64 @strlen(ptr %a0)
  ret void
}

;; a pointer handed over as a number
; refused: no such function: %r0 = call i64 @"same"(ptr %a0)
define internal i64 @"same"(i64 noundef %a0) #0 {
start:
  ret i64 %a0
}

define void @f(ptr noundef %a0) #0 {
start:
  %r0 = call i64 @"same"(ptr %a0)
  ret void
}

;; a number taken over as a pointer
; refused: no such function: %r0 = call ptr @"same"(i64 %a0)
define internal i64 @"same"(i64 noundef %a0) #0 {
start:
  ret i64 %a0
}

define void @f(i64 noundef %a0) #0 {
start:
  %r0 = call ptr @"same"(i64 %a0)
  ret void
}

;; a pair taken over as a pair of numbers
; refused: no such function: %r0 = call { i64, i64 } @"both"(ptr %a0)
define internal { ptr, i64 } @"both"(ptr noundef %a0) #0 {
start:
  %r0 = insertvalue { ptr, i64 } poison, ptr %a0, 0
  ret { ptr, i64 } %r0
}

define void @f(ptr noundef %a0) #0 {
start:
  %r0 = call { i64, i64 } @"both"(ptr %a0)
  ret void
}

;; a line at the margin
; refused: not a listed line: %r0 = ptrtoint ptr %a0 to i64
define i64 @f(ptr noundef %a0) #0 {
start:
%r0 = ptrtoint ptr %a0 to i64
  ret i64 %r0
}

;; words for the assembler
; refused: not a listed line: module asm ".quad 0"
module asm ".quad 0"

;; a global behind what a line begins with
; refused: not a listed line: !0 = !{} @g = global i64 0
!0 = !{} @g = global i64 0

;; a function behind what a line begins with
; refused: not a listed line: declare void @llvm.trap() declare i64 @strlen(ptr) #0
declare void @llvm.trap() declare i64 @strlen(ptr) #0

;; a slot of the width of a pointer that is copied
; refused: a slot of the width of a pointer is used otherwise: %r0 = alloca ptr, align 8
define void @f(ptr noundef %a0) #0 {
start:
  %r0 = alloca ptr, align 8
  store ptr %a0, ptr %r0, align 8
  call void @llvm.memmove.p0.p0.i64(ptr %a0, ptr %r0, i64 8, i1 false)
  ret void
}

;; a slot of the width of a pointer that is handed on
; refused: a slot of the width of a pointer is used otherwise: %r0 = alloca ptr, align 8
define internal void @"fill"(ptr noundef %a0) #0 {
start:
  call void @llvm.memset.p0.i64(ptr %a0, i8 0, i64 8, i1 false)
  ret void
}

define void @f() #0 {
start:
  %r0 = alloca ptr, align 8
  call void @"fill"(ptr %r0)
  ret void
}

;; a slot of the width of a pointer with a number in it
; refused: a slot of the width of a pointer is used otherwise: %r0 = alloca ptr, align 8
define void @f(i64 noundef %a0) #0 {
start:
  %r0 = alloca ptr, align 8
  store i64 %a0, ptr %r0, align 8
  ret void
}

;; a slot of the width of a pointer whose place is kept
; refused: a slot of the width of a pointer is used otherwise: %r0 = alloca ptr, align 8
define void @f(ptr noundef %a0) #0 {
start:
  %r0 = alloca ptr, align 8
  store ptr %r0, ptr %a0, align 8
  ret void
}

;; a slot of the width of a pointer that has its own place in it
; refused: a slot of the width of a pointer is used otherwise: %r0 = alloca ptr, align 8
define void @f() #0 {
start:
  %r0 = alloca ptr, align 8
  store ptr %r0, ptr %r0, align 8
  ret void
}

;; a pointer read as a number
; refused: a pointer and a number in one byte: %r0 = load i64, ptr %a1, align 8
define i64 @f(ptr noundef %a0, ptr noundef %a1) #0 {
start:
  store ptr %a0, ptr %a1, align 8
  %r0 = load i64, ptr %a1, align 8
  ret i64 %r0
}

;; the upper half of a pointer
; refused: a pointer and a number in one byte: %r1 = load i32, ptr %r0, align 4
define i32 @f(ptr noundef %a0, ptr noundef %a1) #0 {
start:
  store ptr %a0, ptr %a1, align 8
  %r0 = getelementptr i8, ptr %a1, i64 4
  %r1 = load i32, ptr %r0, align 4
  ret i32 %r1
}

;; a pointer from the middle of one
; refused: a pointer and a number in one byte: %r1 = load ptr, ptr %r0, align 4
define ptr @f(ptr noundef %a0, ptr noundef %a1) #0 {
start:
  store ptr %a0, ptr %a1, align 8
  %r0 = getelementptr i8, ptr %a1, i64 4
  %r1 = load ptr, ptr %r0, align 4
  ret ptr %r1
}

;; the part of a pair of numbers where a pointer lies
; refused: a pointer and a number in one byte: %r1 = load { i8, i64 }, ptr %a1, align 8
define void @f(ptr noundef %a0, ptr noundef %a1) #0 {
start:
  %r0 = getelementptr i8, ptr %a1, i64 8
  store ptr %a0, ptr %r0, align 8
  %r1 = load { i8, i64 }, ptr %a1, align 8
  ret void
}

;; a place that is reached by a step back
; refused: a pointer and a number in one byte: %r2 = load i64, ptr %r1, align 8
define i64 @f(ptr noundef %a0, ptr noundef %a1) #0 {
start:
  store ptr %a0, ptr %a1, align 8
  %r0 = getelementptr i8, ptr %a1, i64 8
  %r1 = getelementptr i8, ptr %r0, i64 -8
  %r2 = load i64, ptr %r1, align 8
  ret i64 %r2
}

;; a place that is reached in a block that stands behind
; refused: a pointer and a number in one byte: store ptr %a0, ptr %r2, align 8
define i64 @f(ptr noundef %a0, ptr noundef %a1) #0 {
start:
  br label %later

before:                                           ; preds = %later
  %r0 = load i64, ptr %r1, align 8
  ret i64 %r0

later:                                            ; preds = %start
  %r1 = getelementptr i8, ptr %a1, i64 8
  %r2 = getelementptr i8, ptr %a1, i64 8
  store ptr %a0, ptr %r2, align 8
  br label %before
}

;; a pointer copied to where a number is read
; refused: a pointer and a number in one byte: call void @llvm.memmove.p0.p0.i64(ptr %r0, ptr %a1, i64 8, i1 false)
define i64 @f(ptr noundef %a0, ptr noundef %a1) #0 {
start:
  %r0 = alloca [8 x i8], align 8
  store ptr %a0, ptr %a1, align 8
  call void @llvm.memmove.p0.p0.i64(ptr %r0, ptr %a1, i64 8, i1 false)
  %r1 = load i64, ptr %r0, align 8
  ret i64 %r1
}

;; a pair as flat.py loads it, and an address
define internal { i8, ptr } @"second"(ptr noundef %a0, ptr noundef %a1, ptr noundef %a2) #0 {
start:
  %r0.first = load i8, ptr %a0, align 8
  %r0.at = getelementptr i8, ptr %a0, i64 8
  %r0.second = load ptr, ptr %r0.at, align 8
  %r0.half = insertvalue { i8, ptr } poison, i8 %r0.first, 0
  %r0 = insertvalue { i8, ptr } %r0.half, ptr %r0.second, 1
  %r1.first = load ptr, ptr %a1, align 4
  %r1.at = getelementptr i8, ptr %a1, i64 8
  %r1.second = load i64, ptr %r1.at, align 4
  %r1.half = insertvalue { ptr, i64 } poison, ptr %r1.first, 0
  %r1 = insertvalue { ptr, i64 } %r1.half, i64 %r1.second, 1
  %r2 = load { i8, i64 }, ptr %a2, align 8
  %r3 = ptrtoint ptr %a0 to i64
  %r4 = ptrtoint ptr %a1 to i64
  %r5 = sub i64 %r3, %r4
  %r6 = icmp ult i64 %r5, 16
  ret { i8, ptr } %r0
}
;; as written
define internal { i8, ptr } @"second"(ptr noundef %a0, ptr noundef %a1, ptr noundef %a2) #0 {
start:
  %r0 = load { i8, ptr }, ptr %a0, align 8
  %r1 = load { ptr, i64 }, ptr %a1, align 4
  %r2 = load { i8, i64 }, ptr %a2, align 8
  %r3 = ptrtoaddr ptr %a0 to i64
  %r4 = ptrtoaddr ptr %a1 to i64
  %r5 = sub i64 %r3, %r4
  %r6 = icmp ult i64 %r5, 16
  ret { i8, ptr } %r0
}
