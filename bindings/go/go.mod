module lakhdzeva.example/lakhdzeva/v3

go 1.19
