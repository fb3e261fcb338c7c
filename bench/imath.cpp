// Imath's half floats, which OpenEXR writes, for Rust: float32 to halves by their bits, and back. As compiled without F16C, which x86-64 does not promise.
#include <Imath/half.h>

#include <cstddef>
#include <cstdint>

extern "C" void imath_to_half(const float *values, std::uint16_t *halves, std::size_t count) noexcept
{
    for (std::size_t i = 0; i < count; i++)
        halves[i] = imath_float_to_half(values[i]);
}

extern "C" void imath_from_half(const std::uint16_t *halves, float *values, std::size_t count) noexcept
{
    for (std::size_t i = 0; i < count; i++)
        values[i] = imath_half_to_float(halves[i]);
}

extern "C" const char *imath_version() noexcept
{
    return IMATH_VERSION_STRING;
}
