; LOAD's BF16 routine over `count` cells, in a loop of its own. It is appended to a library's module and compiled with it, by rt's compiler, since
; the routine is private there.
define void @replay_unpack(ptr noalias %cells, ptr noalias %words, i64 %count) {
start:
  %none = icmp eq i64 %count, 0
  br i1 %none, label %end, label %each
each:
  %n = phi i64 [ 0, %start ], [ %next, %each ]
  %from = getelementptr i16, ptr %cells, i64 %n
  %cell = load i16, ptr %from
  %word = call i32 @"lane::load::bf16"(i16 %cell)
  %to = getelementptr i32, ptr %words, i64 %n
  store i32 %word, ptr %to
  %next = add nuw i64 %n, 1
  %more = icmp ult i64 %next, %count
  br i1 %more, label %each, label %end
end:
  ret void
}
