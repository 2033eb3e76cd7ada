"""What kafka-python does in a check: run by an interpreter that has it, and told what by words.

    python_client.py produce RELEASE ADDRESS ACKS TOPIC PARTITION FIRST COUNT
    python_client.py consume RELEASE ADDRESS TOPIC PARTITION OFFSET COUNT

`produce` sends records that say their numbers, and prints the offset of each, and where the log starts. `consume` prints each record that
it gets from the offset on, until there were so many, and then looks once more whether there is another. The broker is told to be of a
RELEASE of Kafka, as `1.0.0`, which has the versions of the apis that the client then sends; so it asks for no list of them.
"""

import sys
import time

import kafka

SECONDS = 8


def version_of(release):
    return tuple(map(int, release.split(".")))


def produce(release, address, acks, topic, partition, first, count):
    acks = acks if acks == "all" else int(acks)
    producer = kafka.KafkaProducer(bootstrap_servers=address, api_version=version_of(release), acks=acks, retries=0)
    numbers = range(int(first), int(first) + int(count))
    sent = [
        producer.send(topic, f"value {n}".encode(), f"key {n}".encode(), [("number", str(n).encode())], int(partition)) for n in numbers
    ]
    for future in sent:
        told = future.get(SECONDS)
        print(told.offset, told.log_start_offset)
    producer.close()


def consume(release, address, topic, partition, offset, count):
    consumer = kafka.KafkaConsumer(bootstrap_servers=address, api_version=version_of(release), fetch_max_wait_ms=100)
    place = kafka.TopicPartition(topic, int(partition))
    consumer.assign([place])
    consumer.seek(place, int(offset))
    end, left = time.monotonic() + SECONDS, int(count)
    while time.monotonic() < end:
        was, got = left, [record for records in consumer.poll(200).values() for record in records]
        for record in got:
            print(record.offset, record.key, record.value, record.headers)
        left -= len(got)
        if was <= 0:
            break
    consumer.close()


if __name__ == "__main__":
    {"produce": produce, "consume": consume}[sys.argv[1]](*sys.argv[2:])
