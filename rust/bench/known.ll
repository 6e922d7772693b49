; Appended to the module of a library of the history, in an archive of its own: its lookup of a known code, which it does not export. The
; octets are those of the list from the codes' count on, and the list is one that the library accepts.

define i64 @NAME_known(ptr %octets, i64 %len, i64 %entries, i64 %signal, i64 %code) {
  %slice = alloca [16 x i8], align 8
  store ptr %octets, ptr %slice, align 8
  %second = getelementptr i8, ptr %slice, i64 8
  store i64 %len, ptr %second, align 8
  %known = call zeroext i1 @"known::known"(ptr %slice, i64 %entries, i64 %signal, i64 %code)
  %number = zext i1 %known to i64
  ret i64 %number
}
