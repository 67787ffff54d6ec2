(module
  (memory 1)
  (func (export "run") (local i32 i64 i64)
    (loop
      local.get 2
      local.get 1
      i64.const 1
      i64.add
      local.tee 1
      i64.add
      local.set 2
      local.get 1
      i64.const 10000000
      i64.lt_u
      br_if 0)))
