module sunwaket

go 1.19
