; A library whose call ick_serve calls itself again and again: the page is built with it to see its stack run out. The
; page hands over arguments, which WebAssembly drops. The other calls aren't made.
@deeper = global i64 1

define i8 @ick_serve() {
  %room = alloca [4096 x i8]
  store volatile i8 1, ptr %room
  %goes = load volatile i64, ptr @deeper
  %ends = icmp eq i64 %goes, 0
  br i1 %ends, label %end, label %deeper
deeper:
  %below = call i8 @ick_serve()
  %one = load volatile i8, ptr %room
  %sum = add i8 %below, %one
  ret i8 %sum
end:
  ret i8 0
}

define i8 @ick_outcomes_serve() {
  ret i8 0
}

define i8 @ick_step_serve() {
  ret i8 0
}

define i8 @ick_stages_serve() {
  ret i8 0
}
