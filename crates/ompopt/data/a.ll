define void @k(ptr %p) {
entry:
  %i = call i32 @__kmpc_target_init(ptr null, i8 1, i1 true)
  %m = icmp eq i32 %i, -1
  br i1 %m, label %user, label %exit
user:
  store i32 7, ptr %p
  call void @__kmpc_target_deinit(ptr null, i8 1)
  ret void
exit:
  ret void
}
declare i32 @__kmpc_target_init(ptr, i8, i1)
declare void @__kmpc_target_deinit(ptr, i8)
