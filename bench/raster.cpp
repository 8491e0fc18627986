/* The spectrum of a plot of 512 by 512 cells by a block of 3 by 3, beside a raster library: OpenCV erodes an image of the plot once more for
 * each entry, dilates what is left as often as it was eroded, and counts. Both have to list the same entries; each time is the least
 * processor time of some turns, on one thread. */
#include "../bindings/koxirmeta.h"
#include <cstdio>
#include <cstdlib>
#include <ctime>
#include <opencv2/imgproc.hpp>
#include <vector>

typedef std::vector<uint64_t> entries;

/* The cells across the plot, and empty ones about it, so that it is eroded at every edge. */
enum { ACROSS = 512, MARGIN = 1, SIDE = ACROSS + 2 * MARGIN, TURNS = 200, RASTER_TURNS = 20 };

static const int32_t block[8] = {1, 2, 1, 2, 1, 2, 1, 2};

static double now() {
    timespec t;
    clock_gettime(CLOCK_PROCESS_CPUTIME_ID, &t);
    return 1e6 * (double)t.tv_sec + 1e-3 * (double)t.tv_nsec;
}

/* The cells from (0, 0) to (511, 511), with so many cells of each side cut off at each corner. */
static void square(int32_t c[8], int32_t cut) {
    const int32_t far = ACROSS - 1;
    const int32_t bounds[8] = {0, far - cut, far, 2 * far - cut, far, far - cut, 0, -cut};
    for (int k = 0; k < 8; k++)
        c[k] = bounds[k];
}

static cv::Mat drawn(const int32_t c[8]) {
    cv::Mat image = cv::Mat::zeros(SIDE, SIDE, CV_8U);
    for (int y = 0; y < ACROSS; y++)
        for (int x = 0; x < ACROSS; x++)
            if (x - y <= c[1] && x + y <= c[3] && -x + y <= c[5] && -x - y <= c[7])
                image.at<uint8_t>(y + MARGIN, x + MARGIN) = 255;
    return image;
}

/* A kernel that is left out is the block of 3 by 3. */
static entries by_raster(const cv::Mat &image) {
    entries list;
    cv::Mat left = image.clone(), trimmed, opened;
    const cv::Point middle(-1, -1);
    for (int more = cv::countNonZero(image), less; more; more = less) {
        const int folds = (int)list.size() + 1;
        cv::erode(left, trimmed, cv::Mat(), middle, 1);
        cv::swap(left, trimmed);
        cv::dilate(left, opened, cv::Mat(), middle, folds);
        less = cv::countNonZero(opened);
        list.push_back((uint64_t)(more - less));
    }
    return list;
}

static entries by_bounds(const int32_t c[8]) {
    entries list(ACROSS);
    size_t trims = 0;
    uint32_t ending = KX_SPENT;
    if (kx_spectrum(c, 8, block, 8, list.data(), list.size(), &trims, &ending) || ending != KX_FINISHED)
        std::exit(1);
    list.resize(trims);
    return list;
}

template <typename Work> static double least(int turns, Work work) {
    double best = 1e18;
    for (int turn = 0; turn < turns; turn++) {
        const double at = now();
        work();
        const double taken = now() - at;
        best = taken < best ? taken : best;
    }
    return best;
}

static void say(const char *name, double proved, double raster) { std::printf("%-15s %9.4f %12.1f %8.0f\n", name, proved, raster, raster / proved); }

static void compare(const char *name, int32_t cut) {
    int32_t c[8];
    square(c, cut);
    const cv::Mat image = drawn(c);
    const entries list = by_bounds(c);
    if (by_raster(image) != list) {
        std::printf("%s: the two lists differ\n", name);
        std::exit(1);
    }
    const double proved = least(TURNS, [&] { by_bounds(c); }), raster = least(RASTER_TURNS, [&] { by_raster(image); });
    std::printf("%s, %zu entries\n", name, list.size());
    say("the whole", proved, raster);
    say("an entry", proved / (double)list.size(), raster / (double)list.size());
}

int main() {
    cv::setNumThreads(1);
    std::printf("%-15s %9s %12s %8s\n", "microseconds", "proved", "OpenCV", "times");
    compare("square", 0);
    compare("slanted", 150);
    return 0;
}
