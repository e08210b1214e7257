define i32 @main() {
  %p = alloca i32
  %n = ptrtoint ptr %p to i64
  ret i32 0
}
