/* In C++: starts a small sign and asks for an update, as README's program in C does. */
#include <cstdint>
#include <cstdio>
#include <vector>

#include "yohrundel.h"

int main()
{
    const yohrundel_geometry sign = {1, 1, 1};
    const yohrundel_mask mask = {{0, 0, 0, 0}};
    std::vector<std::uint32_t> one(64), two(64), image(64);
    one[28] = 0xFFFE0001;
    two[28] = 0xFFFFFFFF;
    yohrundel_device d = yohrundel_power_on();
    d = yohrundel_reset(sign, d, one.data(), 64, two.data(), 64, nullptr, 0, YOHRUNDEL_POWER_ON, mask).device;
    d = yohrundel_start_up(sign, d).device;
    const yohrundel_update_start_answer update =
        yohrundel_update_start(sign, d, one.data(), 64, two.data(), 64, image.data(), 64);
    std::printf("declined by %u, %u actions\n", unsigned(update.decline), unsigned(update.total));
}
