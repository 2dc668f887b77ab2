package main

import "github.com/gogo/protobuf/proto"

// The messages of CRI (runtime.v1) with the fields that the tests use. Numbers are those of api.proto, in which a field
// that is not here is passed over.

type (
	sandboxMetadata struct {
		Name      string `protobuf:"bytes,1,opt,name=name" json:"name,omitempty"`
		Uid       string `protobuf:"bytes,2,opt,name=uid" json:"uid,omitempty"`
		Namespace string `protobuf:"bytes,3,opt,name=namespace" json:"namespace,omitempty"`
	}
	namespaceOption struct {
		Network int32 `protobuf:"varint,1,opt,name=network" json:"network,omitempty"`
	}
	securityContext struct {
		NamespaceOptions *namespaceOption `protobuf:"bytes,1,opt,name=namespace_options" json:"namespace_options,omitempty"`
	}
	linuxSandbox struct {
		CgroupParent    string           `protobuf:"bytes,1,opt,name=cgroup_parent" json:"cgroup_parent,omitempty"`
		SecurityContext *securityContext `protobuf:"bytes,2,opt,name=security_context" json:"security_context,omitempty"`
	}
	sandboxConfig struct {
		Metadata     *sandboxMetadata  `protobuf:"bytes,1,opt,name=metadata" json:"metadata,omitempty"`
		LogDirectory string            `protobuf:"bytes,3,opt,name=log_directory" json:"log_directory,omitempty"`
		Annotations  map[string]string `protobuf:"bytes,7,rep,name=annotations" json:"annotations,omitempty" protobuf_key:"bytes,1,opt,name=key" protobuf_val:"bytes,2,opt,name=value"`
		Linux        *linuxSandbox     `protobuf:"bytes,8,opt,name=linux" json:"linux,omitempty"`
	}
	runPodSandboxRequest struct {
		Config         *sandboxConfig `protobuf:"bytes,1,opt,name=config" json:"config,omitempty"`
		RuntimeHandler string         `protobuf:"bytes,2,opt,name=runtime_handler" json:"runtime_handler,omitempty"`
	}
	// sandbox is each request and reply that has the id of a sandbox only.
	sandbox struct {
		PodSandboxId string `protobuf:"bytes,1,opt,name=pod_sandbox_id" json:"pod_sandbox_id,omitempty"`
	}

	containerMetadata struct {
		Name string `protobuf:"bytes,1,opt,name=name" json:"name,omitempty"`
	}
	imageSpec struct {
		Image string `protobuf:"bytes,1,opt,name=image" json:"image,omitempty"`
	}
	keyValue struct {
		Key   string `protobuf:"bytes,1,opt,name=key" json:"key,omitempty"`
		Value string `protobuf:"bytes,2,opt,name=value" json:"value,omitempty"`
	}
	resources struct {
		CpuPeriod          int64 `protobuf:"varint,1,opt,name=cpu_period" json:"cpu_period,omitempty"`
		CpuQuota           int64 `protobuf:"varint,2,opt,name=cpu_quota" json:"cpu_quota,omitempty"`
		MemoryLimitInBytes int64 `protobuf:"varint,4,opt,name=memory_limit_in_bytes" json:"memory_limit_in_bytes,omitempty"`
	}
	linuxContainer struct {
		Resources *resources `protobuf:"bytes,1,opt,name=resources" json:"resources,omitempty"`
	}
	containerConfig struct {
		Metadata *containerMetadata `protobuf:"bytes,1,opt,name=metadata" json:"metadata,omitempty"`
		Image    *imageSpec         `protobuf:"bytes,2,opt,name=image" json:"image,omitempty"`
		Command  []string           `protobuf:"bytes,3,rep,name=command" json:"command,omitempty"`
		Args     []string           `protobuf:"bytes,4,rep,name=args" json:"args,omitempty"`
		Envs     []*keyValue        `protobuf:"bytes,6,rep,name=envs" json:"envs,omitempty"`
		LogPath  string             `protobuf:"bytes,11,opt,name=log_path" json:"log_path,omitempty"`
		Linux    *linuxContainer    `protobuf:"bytes,15,opt,name=linux" json:"linux,omitempty"`
	}
	createContainerRequest struct {
		PodSandboxId  string           `protobuf:"bytes,1,opt,name=pod_sandbox_id" json:"pod_sandbox_id,omitempty"`
		Config        *containerConfig `protobuf:"bytes,2,opt,name=config" json:"config,omitempty"`
		SandboxConfig *sandboxConfig   `protobuf:"bytes,3,opt,name=sandbox_config" json:"sandbox_config,omitempty"`
	}
	// container is each request and reply that has the id of a container only.
	container struct {
		ContainerId string `protobuf:"bytes,1,opt,name=container_id" json:"container_id,omitempty"`
	}
	stopContainerRequest struct {
		ContainerId string `protobuf:"bytes,1,opt,name=container_id" json:"container_id,omitempty"`
		Timeout     int64  `protobuf:"varint,2,opt,name=timeout" json:"timeout,omitempty"`
	}
	containerStatus struct {
		State    int32  `protobuf:"varint,3,opt,name=state" json:"state,omitempty"`
		ExitCode int32  `protobuf:"varint,7,opt,name=exit_code" json:"exit_code,omitempty"`
		Reason   string `protobuf:"bytes,10,opt,name=reason" json:"reason,omitempty"`
		Message  string `protobuf:"bytes,11,opt,name=message" json:"message,omitempty"`
	}
	containerStatusResponse struct {
		Status *containerStatus `protobuf:"bytes,1,opt,name=status" json:"status,omitempty"`
	}
	number struct {
		Value uint64 `protobuf:"varint,1,opt,name=value" json:"value,omitempty"`
	}
	usage struct {
		Value *number `protobuf:"bytes,2,opt,name=value" json:"value,omitempty"`
	}
	containerStats struct {
		Cpu    *usage `protobuf:"bytes,2,opt,name=cpu" json:"cpu,omitempty"`
		Memory *usage `protobuf:"bytes,3,opt,name=memory" json:"memory,omitempty"`
	}
	containerStatsResponse struct {
		Stats *containerStats `protobuf:"bytes,1,opt,name=stats" json:"stats,omitempty"`
	}
	execSyncRequest struct {
		ContainerId string   `protobuf:"bytes,1,opt,name=container_id" json:"container_id,omitempty"`
		Cmd         []string `protobuf:"bytes,2,rep,name=cmd" json:"cmd,omitempty"`
		Timeout     int64    `protobuf:"varint,3,opt,name=timeout" json:"timeout,omitempty"`
	}
	execSyncResponse struct {
		Stdout   []byte `protobuf:"bytes,1,opt,name=stdout" json:"stdout,omitempty"`
		Stderr   []byte `protobuf:"bytes,2,opt,name=stderr" json:"stderr,omitempty"`
		ExitCode int32  `protobuf:"varint,3,opt,name=exit_code" json:"exit_code,omitempty"`
	}
	versionResponse struct {
		RuntimeName string `protobuf:"bytes,2,opt,name=runtime_name" json:"runtime_name,omitempty"`
	}
	nothing struct{}
)

// call has the request and the reply of a method.
type call struct{ request, reply proto.Message }

var calls = map[string]func() call{
	"Version":          func() call { return call{&nothing{}, &versionResponse{}} },
	"RunPodSandbox":    func() call { return call{&runPodSandboxRequest{}, &sandbox{}} },
	"StopPodSandbox":   func() call { return call{&sandbox{}, &nothing{}} },
	"RemovePodSandbox": func() call { return call{&sandbox{}, &nothing{}} },
	"CreateContainer":  func() call { return call{&createContainerRequest{}, &container{}} },
	"StartContainer":   func() call { return call{&container{}, &nothing{}} },
	"StopContainer":    func() call { return call{&stopContainerRequest{}, &nothing{}} },
	"RemoveContainer":  func() call { return call{&container{}, &nothing{}} },
	"ContainerStatus":  func() call { return call{&container{}, &containerStatusResponse{}} },
	"ContainerStats":   func() call { return call{&container{}, &containerStatsResponse{}} },
	"ExecSync":         func() call { return call{&execSyncRequest{}, &execSyncResponse{}} },
}

// What each message needs to be one.

func (m *sandboxMetadata) Reset()         { *m = sandboxMetadata{} }
func (m *sandboxMetadata) String() string { return proto.CompactTextString(m) }
func (m *sandboxMetadata) ProtoMessage()  {}

func (m *namespaceOption) Reset()         { *m = namespaceOption{} }
func (m *namespaceOption) String() string { return proto.CompactTextString(m) }
func (m *namespaceOption) ProtoMessage()  {}

func (m *securityContext) Reset()         { *m = securityContext{} }
func (m *securityContext) String() string { return proto.CompactTextString(m) }
func (m *securityContext) ProtoMessage()  {}

func (m *linuxSandbox) Reset()         { *m = linuxSandbox{} }
func (m *linuxSandbox) String() string { return proto.CompactTextString(m) }
func (m *linuxSandbox) ProtoMessage()  {}

func (m *sandboxConfig) Reset()         { *m = sandboxConfig{} }
func (m *sandboxConfig) String() string { return proto.CompactTextString(m) }
func (m *sandboxConfig) ProtoMessage()  {}

func (m *runPodSandboxRequest) Reset()         { *m = runPodSandboxRequest{} }
func (m *runPodSandboxRequest) String() string { return proto.CompactTextString(m) }
func (m *runPodSandboxRequest) ProtoMessage()  {}

func (m *sandbox) Reset()         { *m = sandbox{} }
func (m *sandbox) String() string { return proto.CompactTextString(m) }
func (m *sandbox) ProtoMessage()  {}

func (m *containerMetadata) Reset()         { *m = containerMetadata{} }
func (m *containerMetadata) String() string { return proto.CompactTextString(m) }
func (m *containerMetadata) ProtoMessage()  {}

func (m *imageSpec) Reset()         { *m = imageSpec{} }
func (m *imageSpec) String() string { return proto.CompactTextString(m) }
func (m *imageSpec) ProtoMessage()  {}

func (m *keyValue) Reset()         { *m = keyValue{} }
func (m *keyValue) String() string { return proto.CompactTextString(m) }
func (m *keyValue) ProtoMessage()  {}

func (m *resources) Reset()         { *m = resources{} }
func (m *resources) String() string { return proto.CompactTextString(m) }
func (m *resources) ProtoMessage()  {}

func (m *linuxContainer) Reset()         { *m = linuxContainer{} }
func (m *linuxContainer) String() string { return proto.CompactTextString(m) }
func (m *linuxContainer) ProtoMessage()  {}

func (m *containerConfig) Reset()         { *m = containerConfig{} }
func (m *containerConfig) String() string { return proto.CompactTextString(m) }
func (m *containerConfig) ProtoMessage()  {}

func (m *createContainerRequest) Reset()         { *m = createContainerRequest{} }
func (m *createContainerRequest) String() string { return proto.CompactTextString(m) }
func (m *createContainerRequest) ProtoMessage()  {}

func (m *container) Reset()         { *m = container{} }
func (m *container) String() string { return proto.CompactTextString(m) }
func (m *container) ProtoMessage()  {}

func (m *stopContainerRequest) Reset()         { *m = stopContainerRequest{} }
func (m *stopContainerRequest) String() string { return proto.CompactTextString(m) }
func (m *stopContainerRequest) ProtoMessage()  {}

func (m *containerStatus) Reset()         { *m = containerStatus{} }
func (m *containerStatus) String() string { return proto.CompactTextString(m) }
func (m *containerStatus) ProtoMessage()  {}

func (m *containerStatusResponse) Reset()         { *m = containerStatusResponse{} }
func (m *containerStatusResponse) String() string { return proto.CompactTextString(m) }
func (m *containerStatusResponse) ProtoMessage()  {}

func (m *number) Reset()         { *m = number{} }
func (m *number) String() string { return proto.CompactTextString(m) }
func (m *number) ProtoMessage()  {}

func (m *usage) Reset()         { *m = usage{} }
func (m *usage) String() string { return proto.CompactTextString(m) }
func (m *usage) ProtoMessage()  {}

func (m *containerStats) Reset()         { *m = containerStats{} }
func (m *containerStats) String() string { return proto.CompactTextString(m) }
func (m *containerStats) ProtoMessage()  {}

func (m *containerStatsResponse) Reset()         { *m = containerStatsResponse{} }
func (m *containerStatsResponse) String() string { return proto.CompactTextString(m) }
func (m *containerStatsResponse) ProtoMessage()  {}

func (m *execSyncRequest) Reset()         { *m = execSyncRequest{} }
func (m *execSyncRequest) String() string { return proto.CompactTextString(m) }
func (m *execSyncRequest) ProtoMessage()  {}

func (m *execSyncResponse) Reset()         { *m = execSyncResponse{} }
func (m *execSyncResponse) String() string { return proto.CompactTextString(m) }
func (m *execSyncResponse) ProtoMessage()  {}

func (m *versionResponse) Reset()         { *m = versionResponse{} }
func (m *versionResponse) String() string { return proto.CompactTextString(m) }
func (m *versionResponse) ProtoMessage()  {}

func (m *nothing) Reset()         { *m = nothing{} }
func (m *nothing) String() string { return proto.CompactTextString(m) }
func (m *nothing) ProtoMessage()  {}
