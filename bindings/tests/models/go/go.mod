module models

go 1.18

require makhloeum v0.0.0

replace makhloeum => ../../../go
