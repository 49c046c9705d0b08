; i1 @"lent::in_order"(ptr, i64)
define zeroext i1 @inner_order(ptr %bytes, i64 %length) nounwind {
  %slice = alloca { ptr, i64 }
  store ptr %bytes, ptr %slice
  %at = getelementptr i8, ptr %slice, i64 8
  store i64 %length, ptr %at
  %answer = call i1 @"lent::in_order"(ptr %slice, i64 8)
  ret i1 %answer
}
