// Package plain takes AVX-512 from what klauspost's code finds, where the environment says KLAUSPOST_AVX512=off. It is initialized first.
package plain

import (
	"os"

	"github.com/klauspost/cpuid/v2"
)

func init() {
	if os.Getenv("KLAUSPOST_AVX512") == "off" {
		cpuid.CPU.Disable(cpuid.AVX512F)
	}
}
