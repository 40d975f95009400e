module snaprecord

go 1.19
