module wovencliff.example/snapjudge

go 1.19
