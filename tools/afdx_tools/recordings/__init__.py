"""Recordings, pcap and pcapng: reading, writing, where they were made."""
