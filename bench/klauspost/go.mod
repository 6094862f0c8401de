// bench/klauspost: Debian's packages of the code and of what it needs, so that nothing is fetched.
module klauspost

go 1.19

require (
	github.com/klauspost/cpuid/v2 v2.0.6
	github.com/klauspost/reedsolomon v1.9.13
)

replace (
	github.com/klauspost/cpuid/v2 => /usr/share/gocode/src/github.com/klauspost/cpuid/v2
	github.com/klauspost/reedsolomon => /usr/share/gocode/src/github.com/klauspost/reedsolomon
)
