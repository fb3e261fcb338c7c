// The same curves and matrices through OpenColorIO's CPU processor, for Rust: signals (codes over the top code) to ACES, in place, and back.
// No exception may reach Rust: the functions that it calls are noexcept, so that one of OpenColorIO's ends the program.
#include <OpenColorIO/OpenColorIO.h>

#include <cmath>
#include <cstdio>
#include <cstdlib>

namespace OCIO = OCIO_NAMESPACE;

namespace {

struct Curve {
    double base, lin_slope, lin_offset, log_slope, log_offset, lin_break, linear_slope;
    double matrix[16];
};

// LogC3 at EI 800: c log10(a x + b) + d above cut, e x + f below.
const Curve LOG_C3 = {10, 5.555556, 0.052272, 0.247190, 0.385537, 0.010591, 5.367655,
                      {0.680205, 0.236137, 0.083658, 0, 0.085415, 1.017471, -0.102886, 0, 0.002057, -0.062563, 1.060506, 0, 0, 0, 0, 1}};

// LogC4: (log2(a x + 64) - 6) / 14 * b + c above t, a line below.
Curve log_c4()
{
    const double a = (262144. - 16.) / 117.45, b = 928. / 1023., c = 95. / 1023.;
    const double s = 7 * std::log(2.) * std::pow(2., 7 - 14 * c / b) / (a * b);
    const double t = (std::pow(2., 14 * (-c / b) + 6) - 64) / a;
    return {2, a, 64, b / 14, c - 6 * b / 14, t, 1 / s,
            {0.750957362824734131, 0.144422786709757084, 0.104619850465508965, 0, 0.000821837079380207, 1.007397584885003194,
             -0.008219421964383583, 0, -0.000499952143533471, -0.000854177231436971, 1.001354129374970370, 0, 0, 0, 0, 1}};
}

// A curve with an ACES matrix. (Curve 2 has none.)
Curve with_matrix(int curve)
{
    switch (curve) {
    case 3: return LOG_C3;
    case 4: return log_c4();
    }
    std::fprintf(stderr, "ocio: there is no ACES matrix for curve %d\n", curve);
    std::abort();
}

// From signals to ACES.
OCIO::GroupTransformRcPtr transform(const Curve &curve)
{
    const double lin_break[3] = {curve.lin_break, curve.lin_break, curve.lin_break};
    auto log = OCIO::LogCameraTransform::Create(lin_break);
    const auto of = [&](void (OCIO::LogCameraTransform::*set)(const double(&)[3]), double x) {
        const double three[3] = {x, x, x};
        ((*log).*set)(three);
    };
    log->setBase(curve.base);
    of(&OCIO::LogCameraTransform::setLinSideSlopeValue, curve.lin_slope);
    of(&OCIO::LogCameraTransform::setLinSideOffsetValue, curve.lin_offset);
    of(&OCIO::LogCameraTransform::setLogSideSlopeValue, curve.log_slope);
    of(&OCIO::LogCameraTransform::setLogSideOffsetValue, curve.log_offset);
    of(&OCIO::LogCameraTransform::setLinearSlopeValue, curve.linear_slope);
    log->setDirection(OCIO::TRANSFORM_DIR_INVERSE);
    auto matrix = OCIO::MatrixTransform::Create();
    matrix->setMatrix(curve.matrix);
    auto group = OCIO::GroupTransform::Create();
    group->appendTransform(log);
    group->appendTransform(matrix);
    return group;
}

} // namespace

extern "C" void *ocio_new(int curve, int back) noexcept
{
    const auto group = transform(with_matrix(curve));
    const auto processor = OCIO::Config::CreateRaw()->getProcessor(group, back ? OCIO::TRANSFORM_DIR_INVERSE : OCIO::TRANSFORM_DIR_FORWARD);
    return new OCIO::ConstCPUProcessorRcPtr(processor->getDefaultCPUProcessor());
}

// Over an image of lines of 1024 pixels; OpenColorIO takes a line at once, and sets memory aside for it.
extern "C" void ocio_apply(const void *processor, float *rgb, long pixels) noexcept
{
    OCIO::PackedImageDesc image(rgb, 1024, pixels / 1024, 3);
    (*static_cast<const OCIO::ConstCPUProcessorRcPtr *>(processor))->apply(image);
}

extern "C" const char *ocio_version() noexcept
{
    return OCIO::GetVersion();
}
