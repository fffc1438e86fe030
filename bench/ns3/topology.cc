// The pipes of a topology as ns-3's PointToPointNetDevice links with DropTailQueue, no IP stack; routes are given by the caller. A packet's receive
// callback sends it on at the next device of its route.
//
// usage: topology PIPES TRACE OUT TICK
//   PIPES  a line a pipe: "BPS LATENCY_NS LATENCY_TICKS QUEUE"; QUEUE counts the packet on the wire, too (ns-3's limit is one less)
//   TRACE  a line a packet, in the order of time: "TIME_NS LENGTH PIPE .."; its number is that of its line, from 0
//   OUT    a line a packet: "left TIME_NS" or "dropped PIPE TIME_NS"
//   TICK   0: ns-3 as it is. Else a length in ns: entries are rounded down to ticks since the first time, and a packet goes on at its finish in
//          ticks, rounded up, and the pipe's latency in ticks; an arrival comes after a finish of the same ns, and packets of one tick by number.
#include <chrono>
#include <fstream>
#include <iostream>
#include <map>
#include <set>
#include <sstream>
#include <string>
#include <vector>
#include "ns3/core-module.h"
#include "ns3/network-module.h"
#include "ns3/point-to-point-module.h"
using namespace ns3;

struct Pipe {
  uint64_t bps;
  int64_t latency_ns, latency_ticks;
  uint32_t queue;
  Ptr<PointToPointNetDevice> sender;
};

struct Sent {
  int64_t time_ns;
  uint32_t length;
  const std::vector<uint32_t>* route;
  uint32_t hop = 0;
  int dropped_at = -1;
  int64_t end_ns = -1;
};

// The number of a packet travels with it.
class Number : public Tag {
 public:
  static TypeId GetTypeId() {
    static TypeId id = TypeId("Number").SetParent<Tag>().AddConstructor<Number>();
    return id;
  }
  TypeId GetInstanceTypeId() const override { return GetTypeId(); }
  uint32_t GetSerializedSize() const override { return 4; }
  void Serialize(TagBuffer buffer) const override { buffer.WriteU32(number); }
  void Deserialize(TagBuffer buffer) override { number = buffer.ReadU32(); }
  void Print(std::ostream& out) const override { out << number; }
  uint32_t number = 0;
};

static std::vector<Pipe> pipes;
static std::vector<Sent> trace;
static std::set<std::vector<uint32_t>> routes;  // each once, however many packets take it
static int64_t tick_ns = 0, base_ns = 0;
// What arrives at one ns, by number, where ticks count.
static std::map<uint32_t, Ptr<Packet>> arrived;

static uint32_t NumberOf(Ptr<const Packet> packet) {
  Number number;
  if (!packet->PeekPacketTag(number)) {
    std::cerr << "a packet without a number\n";
    exit(3);
  }
  return number.number;
}

static void Give(Ptr<Packet> packet) {
  Sent& sent = trace[NumberOf(packet)];
  if (sent.hop == sent.route->size()) {
    sent.end_ns = Simulator::Now().GetNanoSeconds();
    return;
  }
  uint32_t number = (*sent.route)[sent.hop];
  Pipe& pipe = pipes[number];
  if (!pipe.sender->Send(packet, pipe.sender->GetBroadcast(), 0x0800)) {
    sent.dropped_at = number;
    sent.end_ns = Simulator::Now().GetNanoSeconds();
  }
}

static void GiveAll() {
  auto now = std::move(arrived);
  arrived.clear();
  for (auto& [number, packet] : now) Give(packet);
}

// Two posts later, all finishes and all arrivals of this ns have been made.
static void Later() { Simulator::ScheduleNow(&GiveAll); }

static void Arrive(Ptr<Packet> packet) {
  if (tick_ns == 0) return Give(packet);
  if (arrived.empty()) Simulator::ScheduleNow(&Later);
  arrived[NumberOf(packet)] = packet;
}

// The ns at which a packet of the trace enters.
static int64_t Entry(uint32_t number) {
  int64_t since = trace[number].time_ns - base_ns;
  return base_ns + (tick_ns ? since / tick_ns * tick_ns : since);
}

// The packets of this ns enter, from the given one on; the next one waits for its own ns, so that few packets and events exist at a time.
static void Enter(uint32_t number) {
  int64_t now = Simulator::Now().GetNanoSeconds();
  for (; number < trace.size() && Entry(number) == now; number++) {
    auto packet = Create<Packet>(trace[number].length - 2);  // the PPP header has two bytes
    Number tag;
    tag.number = number;
    packet->AddPacketTag(tag);
    Arrive(packet);
  }
  if (number < trace.size()) Simulator::Schedule(NanoSeconds(Entry(number) - now), &Enter, number);
}

static bool Receive(uint32_t number, Ptr<NetDevice>, Ptr<const Packet> packet, uint16_t, const Address&) {
  Ptr<Packet> next = packet->Copy();
  trace[NumberOf(next)].hop++;
  if (tick_ns == 0) {
    Arrive(next);
    return true;
  }
  int64_t finish = Simulator::Now().GetNanoSeconds() - base_ns;  // the channel has no delay here
  int64_t exit = (finish + tick_ns - 1) / tick_ns + pipes[number].latency_ticks;
  Simulator::Schedule(NanoSeconds(exit * tick_ns - finish), &Arrive, next);
  return true;
}

static void Read(const char* pipes_name, const char* trace_name) {
  std::ifstream in(pipes_name);
  Pipe pipe;
  while (in >> pipe.bps >> pipe.latency_ns >> pipe.latency_ticks >> pipe.queue) pipes.push_back(pipe);
  std::ifstream lines(trace_name);
  std::string line;
  while (std::getline(lines, line)) {
    std::istringstream words(line);
    Sent sent;
    words >> sent.time_ns >> sent.length;
    std::vector<uint32_t> route;
    uint32_t number;
    while (words >> number) route.push_back(number);
    sent.route = &*routes.insert(route).first;
    trace.push_back(sent);
  }
}

static void Connect(Pipe& pipe, uint32_t number) {
  NodeContainer ends;
  ends.Create(2);
  auto channel = CreateObject<PointToPointChannel>();
  channel->SetAttribute("Delay", TimeValue(NanoSeconds(tick_ns ? 0 : pipe.latency_ns)));
  for (uint32_t side = 0; side < 2; side++) {
    auto device = CreateObject<PointToPointNetDevice>();
    device->SetAddress(Mac48Address::Allocate());
    device->SetDataRate(DataRate(pipe.bps));
    auto queue = CreateObject<DropTailQueue<Packet>>();
    queue->SetMaxSize(QueueSize(QueueSizeUnit::PACKETS, pipe.queue - 1));
    device->SetQueue(queue);
    ends.Get(side)->AddDevice(device);
    device->Attach(channel);
    if (side == 0) pipe.sender = device;
    else device->SetReceiveCallback(MakeBoundCallback(&Receive, number));
  }
}

int main(int argc, char** argv) {
  if (argc != 5) return 2;
  Read(argv[1], argv[2]);
  tick_ns = std::stoll(argv[4]);
  for (uint32_t number = 0; number < pipes.size(); number++) Connect(pipes[number], number);
  base_ns = trace.empty() ? 0 : trace[0].time_ns;
  Simulator::Schedule(NanoSeconds(base_ns), &Enter, 0);
  auto start = std::chrono::steady_clock::now();
  Simulator::Run();
  std::chrono::duration<double> seconds = std::chrono::steady_clock::now() - start;
  std::ofstream out(argv[3]);
  for (auto& sent : trace) {
    if (sent.dropped_at < 0) out << "left " << sent.end_ns << '\n';
    else out << "dropped " << sent.dropped_at << ' ' << sent.end_ns << '\n';
  }
  std::cout << seconds.count() << std::endl;
  Simulator::Destroy();
}
