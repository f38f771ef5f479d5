module zigrunk

go 1.19
