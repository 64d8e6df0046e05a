module example.com/token-service

go 1.19

require lakhdzeva.example/lakhdzeva/v3 v3.0.0

// No registry has the package. `make install` puts it here:
replace lakhdzeva.example/lakhdzeva/v3 => /usr/local/share/lakhdzeva/go
