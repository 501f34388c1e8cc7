// Plays a recorded program on pages of the Vulkan Memory Allocator's VmaVirtualBlock, by hand: the first page that grants, a
// block of its own for what is larger than a page, and one empty page is kept.
//     vma PAGE RUNS < SCRIPT
// It prints the peak of pages, of larger blocks and of their bytes, how many were made, and the time of a call in ns.
#include <algorithm>
#include <chrono>
#include <cstdint>
#include <cstdio>
#include <cstdlib>
#include <iostream>
#include <string>
#include <vector>
#define VMA_IMPLEMENTATION
// nothing of Vulkan is called
#define VMA_STATIC_VULKAN_FUNCTIONS 0
#define VMA_DYNAMIC_VULKAN_FUNCTIONS 0
#include "vk_mem_alloc.h"

struct Step { uint32_t slot, size; };
struct Page { VmaVirtualBlock block; uint64_t size; bool larger; };
struct Place { uint32_t page; VmaVirtualAllocation range; };

struct Store {
    uint64_t page_size;
    std::vector<Page> pages;       // a null block: none
    std::vector<uint32_t> unused;  // their numbers
    int spare = -1;
    uint64_t counts[2] = {0, 0}, bytes = 0, peaks[2] = {0, 0}, peak_bytes = 0, made = 0;

    bool allocate(uint32_t size, Place &place) {
        VmaVirtualAllocationCreateInfo request = {};
        request.size = size;
        if (size <= page_size)
            for (uint32_t n = 0; n < pages.size(); n++)
                if (pages[n].block && !pages[n].larger && vmaVirtualAllocate(pages[n].block, &request, &place.range, nullptr) == VK_SUCCESS) {
                    place.page = n;
                    return true;
                }
        VmaVirtualBlockCreateInfo info = {};
        bool larger = size > page_size;
        info.size = larger ? size : page_size;
        Page page = {nullptr, info.size, larger};
        if (vmaCreateVirtualBlock(&info, &page.block) != VK_SUCCESS) return false;
        uint32_t number;
        if (unused.empty()) {
            number = pages.size();
            pages.push_back(page);
        } else {
            number = unused.back();
            unused.pop_back();
            pages[number] = page;
        }
        made++;
        bytes += page.size;
        counts[larger]++;
        peak_bytes = std::max(peak_bytes, bytes);
        peaks[larger] = std::max(peaks[larger], counts[larger]);
        place.page = number;
        return vmaVirtualAllocate(page.block, &request, &place.range, nullptr) == VK_SUCCESS;
    }

    void drop(uint32_t number) {
        Page &page = pages[number];
        vmaDestroyVirtualBlock(page.block);
        bytes -= page.size;
        counts[page.larger]--;
        page.block = nullptr;
        unused.push_back(number);
    }

    void release(Place place) {
        Page &page = pages[place.page];
        vmaVirtualFree(page.block, place.range);
        if (!vmaIsVirtualBlockEmpty(page.block)) return;
        if (page.larger || (spare >= 0 && spare != (int) place.page && pages[spare].block && vmaIsVirtualBlockEmpty(pages[spare].block)))
            drop(place.page);
        else
            spare = place.page;
    }
};

int main(int argc, char **argv) {
    if (argc != 3) return 2;
    uint64_t page = std::stoull(argv[1]);
    std::vector<Step> steps;
    uint32_t slots = 0;
    for (std::string word; std::cin >> word;) {
        uint32_t number;
        if (word == "alloc" && std::cin >> number) steps.push_back({slots++, number});
        else if (word == "free" && std::cin >> number) steps.push_back({number - 1, 0});
    }
    double best = 1e30;
    for (int run = 0; run < std::stoi(argv[2]); run++) {
        Store store;
        store.page_size = page;
        std::vector<Place> places(slots);
        auto start = std::chrono::steady_clock::now();
        for (Step step : steps) {
            if (step.size == 0) store.release(places[step.slot]);
            else if (!store.allocate(step.size, places[step.slot])) { std::fprintf(stderr, "refused\n"); return 1; }
        }
        double time = std::chrono::duration<double, std::nano>(std::chrono::steady_clock::now() - start).count();
        best = std::min(best, time / steps.size());
        if (run == 0)
            std::printf("%llu %llu %llu %llu ", (unsigned long long) store.peaks[0], (unsigned long long) store.peaks[1],
                        (unsigned long long) store.peak_bytes, (unsigned long long) store.made);
        for (Page &left : store.pages)
            if (left.block) {
                vmaClearVirtualBlock(left.block);
                vmaDestroyVirtualBlock(left.block);
            }
    }
    std::printf("%.0f\n", best);
}
