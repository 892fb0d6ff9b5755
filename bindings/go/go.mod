module makhloeum

go 1.18
