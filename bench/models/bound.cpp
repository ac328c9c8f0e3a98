// A lower bound of the sum of displacements of all legal placements.
//
// usage: bound [ROUNDS [SECONDS]] < design
//
// Each site gets a price, 0 or more. Each cell takes the place at which its displacement and the prices of its sites are
// least, as if it were alone. The sum of these, less all prices, is a lower bound (Lagrangian relaxation of "a site takes
// at most one cell"). Each round makes the price of a site greater if several cells took it, and less if none did.
#include <chrono>
#include <cmath>
#include <cstdio>

#include "design.hpp"

struct Bound {
    const Design& design;
    size_t sites;
    std::vector<float> price, step;
    std::vector<double> sums;            // by row: the sum of the prices in front of each site
    std::vector<int> takers;
    std::vector<char> is_ground;

    explicit Bound(const Design& given) : design(given), sites(given.sites) {
        size_t all = design.rows.size() * sites;
        price.assign(all, 0);
        step.assign(all, 0);
        takers.assign(all, 0);
        is_ground.assign(all, 0);
        sums.assign(design.rows.size() * (sites + 1), 0);
        for (size_t row = 0; row < design.rows.size(); row++)
            for (const Run& run : design.runs[1][row])
                std::fill(&is_ground[row * sites + run.low], &is_ground[row * sites + run.high], 1);
    }

    // The bound of the present prices. Counts the cells that take each site.
    double value() {
        double all = 0;
        for (size_t row = 0; row < design.rows.size(); row++) {
            double sum = 0, *of_row = &sums[row * (sites + 1)];
            for (size_t at = 0; at < sites; at++) of_row[at] = sum, sum += price[row * sites + at];
            of_row[sites] = sum;
            all += sum;
        }
        std::fill(takers.begin(), takers.end(), 0);
        double value = -all;
        for (const Cell& cell : design.cells) value += take_best(cell);
        return value;
    }

    void change_prices(double length) {
        for (size_t at = 0; at < price.size(); at++) {
            if (!is_ground[at]) continue;
            step[at] = 0.5f * float(takers[at] - 1) + 0.5f * step[at];
            price[at] = std::max(0.0f, price[at] + float(length) * step[at]);
        }
    }

private:
    struct Best {
        double cost = INFINITY;
        int row = -1, site = 0;
    };

    // Looks for the cheapest place from the nearest row outwards, and in each row from the nearest site outwards.
    double take_best(const Cell& cell) {
        Best best;
        int up = 0, count = int(design.rows.size());
        while (up < count && design.rows[up].bottom < cell.target_y) up++;
        for (int down = up - 1;;) {
            double above = up < count ? double(design.rows[up].bottom - cell.target_y) : INFINITY;
            double under = down >= 0 ? double(cell.target_y - design.rows[down].bottom) : INFINITY;
            if (std::min(above, under) >= best.cost || (up >= count && down < 0)) break;
            search_row(cell, under <= above ? down-- : up++, best);
        }
        if (best.row < 0) {
            fprintf(stderr, "a cell has no place\n");
            exit(2);
        }
        for (int row = best.row; row < best.row + cell.height; row++)
            for (int at = best.site; at < best.site + cell.width; at++) takers[size_t(row) * sites + at]++;
        return best.cost;
    }

    void search_row(const Cell& cell, int row, Best& best) {
        if (!design.fits(cell, row)) return;
        double way = std::abs(double(design.rows[row].bottom - cell.target_y)), width = double(design.site_width);
        int target = int(std::floor(double(cell.target_x) / width));
        auto try_site = [&](int at) {
            double cost = way + std::abs(at * width - double(cell.target_x));
            if (cost >= best.cost) return false;
            for (int up = row; up < row + cell.height; up++) {
                const double* of_row = &sums[size_t(up) * (sites + 1)];
                cost += of_row[at + cell.width] - of_row[at];
            }
            if (cost < best.cost) best = {cost, row, at};
            return true;
        };
        auto [begin, end] = design.runs_of(cell, row);
        for (const Run* run = begin; run < end; run++) {
            int last = run->high - cell.width;
            for (int at = std::max(run->low, target + 1); at <= last && try_site(at);) at++;
            for (int at = std::min(last, target); at >= run->low && try_site(at);) at--;
        }
    }
};

int main(int count, char** words) {
    std::ios::sync_with_stdio(false);
    int rounds = count > 1 ? atoi(words[1]) : 1000;
    double seconds = count > 2 ? atof(words[2]) : 60, width = 0, best = 0;
    Design design(std::cin);
    Bound bound(design);
    for (const Cell& cell : design.cells) width += cell.width;
    double first = 0.1 * double(design.row_height) * double(design.cells.size()) / width, halved = std::max(12.0, rounds / 12.0);
    auto begin = std::chrono::steady_clock::now();
    for (int round = 0; round <= rounds; round++) {
        best = std::max(best, bound.value());
        bound.change_prices(first / (1 + round / halved));
        std::chrono::duration<double> spent = std::chrono::steady_clock::now() - begin;
        if (spent.count() > seconds) break;
    }
    printf("{\"bound\":%.0f}\n", best);
}
