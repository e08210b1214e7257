declare i32 @putchar(i32)
define i32 @main() {
entry:
  br label %head
head:
  %i = phi i32 [ 0, %entry ], [ %j, %body ]
  %c = icmp ult i32 %i, 3
  br i1 %c, label %body, label %done
body:
  %d = add i32 %i, 65
  %p = call i32 @putchar(i32 %d)
  %j = add i32 %i, 1
  br label %head
done:
  ret i32 %i
}
