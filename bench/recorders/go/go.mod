module cost

go 1.19

require snaprecord v0.0.0

replace snaprecord => ../../../ffi/record/go
