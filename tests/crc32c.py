"""CRC-32C, the checksum of Btrfs, for what makes and changes volumes."""

POLYNOMIAL = 0x82F63B78


def table_of():
    """The checksum of each byte."""
    table = []
    for byte in range(256):
        for _ in range(8):
            byte = byte >> 1 ^ (POLYNOMIAL if byte & 1 else 0)
        table.append(byte)
    return table


TABLE = table_of()


def raw_crc(start, data):
    """The register behind some bytes."""
    for byte in data:
        start = start >> 8 ^ TABLE[(start ^ byte) & 0xFF]
    return start


def crc32c(data):
    return raw_crc(0xFFFFFFFF, data) ^ 0xFFFFFFFF
