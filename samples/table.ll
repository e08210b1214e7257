@scratch = global [16 x i32] zeroinitializer
@fmt = constant [4 x i8] c"%d\0A\00"
declare i32 @printf(ptr, ...)
define i32 @main() {
entry:
  br label %head
head:
  %i = phi i32 [ 0, %entry ], [ %i2, %latch ]
  %c = icmp slt i32 %i, 3
  br i1 %c, label %body, label %done
body:
  br label %fill
fill:
  %j = phi i32 [ 0, %body ], [ %j2, %fill ]
  %q = getelementptr inbounds [16 x i32], ptr @scratch, i64 0, i32 %j
  %v = add i32 %i, %j
  store i32 %v, ptr %q
  %j2 = add i32 %j, 1
  %d = icmp slt i32 %j2, 16
  br i1 %d, label %fill, label %say
say:
  %q3 = getelementptr inbounds [16 x i32], ptr @scratch, i64 0, i64 3
  %x = load i32, ptr %q3
  %r = call i32 (ptr, ...) @printf(ptr @fmt, i32 %x)
  br label %latch
latch:
  %i2 = add i32 %i, 1
  br label %head
done:
  ret i32 0
}
