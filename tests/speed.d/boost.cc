// Boost's CRC-16/ARC under a plain name, for the comparison.
#include <boost/crc.hpp>
#include <cstdint>

extern "C" std::uint16_t boost_crc(const std::uint8_t *ten_bytes)
{
    boost::crc_16_type crc;
    crc.process_bytes(ten_bytes, 10);
    return crc.checksum();
}
