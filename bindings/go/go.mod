module tizulgech.example/tizulgech

go 1.19
