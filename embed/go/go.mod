module rookdresser

go 1.19
