; The module calls these two for an answer in a pair of registers, which no C function gives on Windows.
target triple = "x86_64-w64-windows-gnu"

declare void @alloc_to(i64, i64, ptr)
declare void @realloc_to(ptr, i64, i64, i64, ptr)

define { i64, i64 } @rattle_alloc(i64 %size, i64 %align) {
  %out = alloca { i64, i64 }
  call void @alloc_to(i64 %size, i64 %align, ptr %out)
  %pair = load { i64, i64 }, ptr %out
  ret { i64, i64 } %pair
}

define { i64, i64 } @rattle_realloc(ptr %at, i64 %old, i64 %size, i64 %align) {
  %out = alloca { i64, i64 }
  call void @realloc_to(ptr %at, i64 %old, i64 %size, i64 %align, ptr %out)
  %pair = load { i64, i64 }, ptr %out
  ret { i64, i64 } %pair
}
