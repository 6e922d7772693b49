; Appended to the library's module, in an archive of its own: the field functions behind the test that their callers are proved to pass,
; which is the test that the independent implementation makes (width 1 to 64, the field wholly in the octets).

define internal i1 @lies_within(i64 %len, i64 %start, i64 %width) {
  %from = add i64 %width, -1
  %wide = icmp ult i64 %from, 64
  %bits = shl i64 %len, 3
  %left = sub i64 %bits, %start
  %begins = icmp ule i64 %start, %bits
  %ends = icmp ule i64 %width, %left
  %a = and i1 %wide, %begins
  %b = and i1 %a, %ends
  ret i1 %b
}

define i64 @proved_read_field(ptr %octets, i64 %len, i64 %start, i64 %width) {
  %good = call i1 @lies_within(i64 %len, i64 %start, i64 %width)
  br i1 %good, label %within, label %without
within:
  %value = call i64 @"octets::read_field"(ptr %octets, i64 %len, i64 %start, i64 %width)
  ret i64 %value
without:
  ret i64 0
}

define void @proved_write_field(ptr %octets, i64 %len, i64 %start, i64 %width, i64 %value) {
  %good = call i1 @lies_within(i64 %len, i64 %start, i64 %width)
  br i1 %good, label %within, label %without
within:
  call void @"octets::write_field"(ptr %octets, i64 %len, i64 %start, i64 %width, i64 %value)
  ret void
without:
  ret void
}
