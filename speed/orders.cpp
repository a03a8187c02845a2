// The same calls by xtensor, over the same memory: loaded by orders.py where xtensor is installed.

#include <array>
#include <cstddef>
#include <cstdint>
#include <ctime>
#include <vector>

#include <xtensor/xadapt.hpp>
#include <xtensor/xarray.hpp>
#include <xtensor/xnoalias.hpp>
#include <xtensor/xtensor.hpp>
#include <xtensor/xview.hpp>

namespace {

struct Side {
    unsigned char *items;
    std::size_t count;
    std::size_t lengths[3];
    std::size_t order[3];
    bool backwards;
};

struct Case {
    std::size_t call;
    std::size_t axes;
    bool bytes;
    Side left;
    Side right;
};

double microseconds() {
    timespec time;
    clock_gettime(CLOCK_PROCESS_CPUTIME_ID, &time);
    return time.tv_sec * 1e6 + time.tv_nsec / 1e3;
}

// What the loops have made, so that none of it is left out.
volatile std::size_t made = 0;

template <class T, std::size_t N>
auto adapted(const Side &side) {
    std::array<std::size_t, N> shape, steps;
    std::array<std::ptrdiff_t, N> strides;
    std::size_t step = 1;
    for (std::size_t axis = N; axis-- > 0; step *= side.lengths[axis]) steps[axis] = step;
    for (std::size_t axis = 0; axis < N; ++axis) {
        shape[axis] = side.lengths[side.order[axis]];
        strides[axis] = static_cast<std::ptrdiff_t>(steps[side.order[axis]]);
    }
    return xt::adapt(reinterpret_cast<T *>(side.items), side.count, xt::no_ownership(), shape, strides);
}

template <class A>
auto backwards(A &whole) {
    using namespace xt::placeholders;
    return xt::view(whole, xt::range(_, _, -2), xt::range(_, _, -2));
}

template <class L, class R>
void over_two(std::size_t call, L &&left, const R &right, std::size_t calls) {
    for (std::size_t nth = 0; nth < calls; ++nth) {
        if (call == 0) {
            xt::noalias(left) = right;
        } else if (call == 1) {
            xt::noalias(left) += right;
        } else {
            made = made + (left == right);
        }
    }
}

template <class T, std::size_t N, class R>
void copied(std::size_t call, const R &right, std::size_t calls) {
    for (std::size_t nth = 0; nth < calls; ++nth) {
        if (call == 3) {
            xt::xtensor<T, N> copy = right;
            made = made + copy.size();
        } else {
            std::vector<T> listed(right.template begin<xt::layout_type::row_major>(), right.template end<xt::layout_type::row_major>());
            made = made + listed.size();
        }
    }
}

template <class T, std::size_t N, class R>
void from(const Case &it, const R &right, std::size_t calls) {
    if (it.call >= 3) {
        copied<T, N>(it.call, right, calls);
    } else {
        auto left = adapted<T, N>(it.left);
        if constexpr (N == 2) {
            if (it.left.backwards) {
                over_two(it.call, backwards(left), right, calls);
                return;
            }
        }
        over_two(it.call, left, right, calls);
    }
}

template <class T, std::size_t N>
void run(const Case &it, std::size_t calls) {
    auto right = adapted<T, N>(it.right);
    if constexpr (N == 2) {
        if (it.right.backwards) {
            from<T, N>(it, backwards(right), calls);
            return;
        }
    }
    from<T, N>(it, right, calls);
}

}

extern "C" double orders_xtensor(const Case *it, std::size_t calls) {
    double start = microseconds();
    if (it->axes == 2) {
        it->bytes ? run<std::uint8_t, 2>(*it, calls) : run<std::int64_t, 2>(*it, calls);
    } else {
        it->bytes ? run<std::uint8_t, 3>(*it, calls) : run<std::int64_t, 3>(*it, calls);
    }
    return (microseconds() - start) / calls;
}
