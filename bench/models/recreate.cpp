// Ruin and recreate: the yardstick of `lefence repair`.
//
// usage: recreate TRIES [FAR WEIGHT] < design
//
// A try takes 2 to 16 cells of a window out and inserts them again in another order, each where the sum of all
// displacements grows least. If the sum is not greater, the result stays. TRIES is the number of tries for each cell.
// From ten tries on, a try may also make the sum a little greater, less and less so (annealing). Displacement beyond FAR
// row heights counts WEIGHT times.
#include <cstdio>

#include "legalization.hpp"

// The most cells of a try, and the least sites of a window on each side.
const int MOST_CELLS = 16, WINDOW = 12;
// Tries for each cell from which on it anneals, and the first temperature in sites.
const double MANY = 10, TEMPERATURE = 3;

struct Recreate {
    Legalization& places;
    Scramble random;
    std::vector<int> pool, taken;
    std::vector<std::pair<double, int>> order;
    std::vector<char> is_listed;
    std::vector<long> alone;      // the cost of each cell's best place if it were alone: no order makes it cheaper

    Recreate(Legalization& given, unsigned long seed) : places(given), random{seed}, is_listed(given.design.cells.size()) {
        Legalization empty(places.design);
        empty.far = places.far;
        empty.far_weight = places.far_weight;
        for (size_t cell = 0; cell < places.design.cells.size(); cell++) alone.push_back(empty.search(int(cell)).cost);
    }

    // Lists the other cells of the team in three rows around the place of a cell or around its target.
    void list_window(int cell) {
        const Design& design = places.design;
        bool is_place = random.below(2);
        int x = is_place ? places.site[cell] : places.below[cell];
        long y = is_place ? design.rows[places.row[cell]].bottom : design.cells[cell].target_y;
        int middle = places.row_from(y + 1) - 1 + random.below(2), sites = WINDOW + random.below(2 * WINDOW);
        pool.clear();
        for (int row = std::max(0, middle - 1); row <= std::min(int(design.rows.size()) - 1, middle + 1); row++)
            places.for_cells(design.cells[cell].team, row, x - sites, x + sites, [&](int other) {
                if (other == cell || is_listed[other]) return;
                is_listed[other] = 1;
                pool.push_back(other);
            });
        for (int other : pool) is_listed[other] = 0;
    }

    // Makes one try around a cell. The sum of costs may grow by `slack`.
    void try_once(int cell, long slack) {
        list_window(cell);
        taken.assign(1, cell);
        for (int count = 1 + random.below(MOST_CELLS - 1); count > 0 && !pool.empty(); count--) {
            int at = random.below(int(pool.size()));
            taken.push_back(pool[at]);
            pool[at] = pool.back();
            pool.pop_back();
        }
        long cost = 0, rest = 0;
        for (int each : taken) cost += places.cost(each), rest += alone[each];
        long limit = cost + slack + 1;
        if (cost < places.design.site_width || rest >= limit) return;
        choose_order();
        places.begin_changes();
        for (int each : taken) places.take(each);
        for (auto [key, each] : order) {
            rest -= alone[each];
            Spot spot = places.search(each, limit - rest);
            if (spot.row < 0) return places.take_back();
            places.put(each, spot);
            limit -= spot.cost;
        }
    }

    // Large cells first, more or less; or any order.
    void choose_order() {
        order.clear();
        bool by_size = random.below(2);
        for (int each : taken) {
            double area = places.design.cells[each].width * places.design.cells[each].height;
            order.push_back({by_size ? -area * (0.3 + random.unit()) : random.unit(), each});
        }
        std::sort(order.begin(), order.end());
    }
};

int main(int count, char** words) {
    std::ios::sync_with_stdio(false);
    double tries = count > 1 ? atof(words[1]) : 2;
    Design design(std::cin);
    Legalization places(design);
    if (count > 3) {
        places.far = atof(words[2]);
        places.far_weight = atol(words[3]);
    }
    places.begin_at_given_places();
    Recreate search(places, 0x9E3779B97F4A7C16ul);
    long start = places.total(), last = long(tries * double(design.cells.size()));
    for (long number = 0; number < last; number++) {
        double heat = tries >= MANY ? TEMPERATURE * double(design.site_width) * std::max(0.0, 1 - 1.1 * double(number) / double(last)) : 0;
        int cell = search.random.below(int(design.cells.size()));
        if (places.displacement(cell) < design.site_width && search.random.below(4)) continue;
        double chance = std::max(1e-12, search.random.unit());
        search.try_once(cell, long(-heat * std::log(chance)));
    }
    long largest = 0;
    for (size_t cell = 0; cell < design.cells.size(); cell++) largest = std::max(largest, places.displacement(int(cell)));
    printf("{\"start\":%ld,\"total\":%ld,\"largest\":%ld,\"legal\":%s}\n", start, places.total(), largest, places.is_legal() ? "true" : "false");
}
