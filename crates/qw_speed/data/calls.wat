(module
  (memory 1)
  (func $next (param i64) (result i64)
    local.get 0
    i64.const 1
    i64.add)
  (func (export "run") (local i32 i64)
    (loop
      local.get 1
      call $next
      local.tee 1
      i64.const 10000000
      i64.lt_u
      br_if 0)))
