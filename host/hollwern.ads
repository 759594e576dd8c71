--  The calls of hollwern.h for a host in Ada 2012 or later. What each promises, and what it asks of the host, stands
--  there. An engine is all zero as declared; the arrays of bytes give the pointers; for nothing to lend, one of range
--  1 .. 0. For x86-64 Linux only. A host is built by
--  gnatmake -IPREFIX/share/hollwern HOST.adb -largs -LPREFIX/lib -lhollwern
with Interfaces; use Interfaces;
with Interfaces.C; use Interfaces.C;
private with System;

package Hollwern is
   --  The version of these declarations; Linked_Version tells that of the archive. They must be equal.
   Version_Major : constant := 2;
   Version_Minor : constant := 3;
   Version_Patch : constant := 0;
   Version : constant := Version_Major * 65_536 + Version_Minor * 256 + Version_Patch;

   --  Bytes of an engine.
   Engine_Size : constant := 3_960;
   --  No event writes more bytes than this.
   Bytes_Most : constant := 1_673;
   --  The most points of a journey.
   Points_Most : constant := 64;
   --  The most segments of a journey.
   Segments_Most : constant := 40;
   --  The most records of a book.
   Records_Most : constant := 40;
   --  The most points of a record.
   Record_Points_Most : constant := 16;
   --  The most zones of a record.
   Zones_Most : constant := 4;
   --  The most bytes of a journey that is not refused.
   Journey_Bytes_Most : constant := 768;
   --  The most bytes of a book that is not refused.
   Book_Bytes_Most : constant := 8_200;
   --  The most rows of kind 15 and of packet 64.
   Constraints_Most : constant := 31;
   --  Bytes of stack that a load takes.
   Stack_Load : constant := 30_720;
   --  Bytes of stack that any other call takes.
   Stack_Other : constant := 2_048;

   --  Event kinds: the first byte of an event.
   Kind_Power_On : constant := 1;
   Kind_Configured : constant := 2;
   Kind_Power_Off : constant := 3;
   Kind_Fault : constant := 4;
   Kind_Reports : constant := 5;
   Kind_Mode : constant := 6;
   Kind_Lever : constant := 7;
   Kind_Press : constant := 8;
   Kind_Position_Report : constant := 9;
   Kind_Length : constant := 10;
   Kind_Load : constant := 11;
   Kind_Skip : constant := 12;
   Kind_Revoke : constant := 13;
   Kind_Traction : constant := 14;
   Kind_Adhesion : constant := 15;

   --  Kind 5: bits of the reports.
   Report_Etcs : constant := 1;
   Report_No_Emergency_Brake : constant := 2;
   Report_No_Inconsistency : constant := 4;
   Report_Data_Valid : constant := 8;
   Report_Train : constant := 16;

   --  Kind 6: ETCS mode. Kind 7: lever.
   Mode_Other : constant := 0;
   Mode_AD : constant := 1;
   Lever_Neutral : constant := 0;
   Lever_Traction : constant := 1;
   Lever_Brake : constant := 2;

   --  Kind 9 and headers: the offset that means undefined.
   Offset_Undefined : constant := 16_777_215;
   --  NID_OPERATIONAL where there is no journey or it has none.
   No_Operational : constant := 4_294_967_295;
   --  NID_C in the content of packet 65 where the position is not known.
   Unknown_Nidc : constant := 1_024;
   --  NID_ATOTS where the journey has none.
   No_Atots : constant := 16_384;

   --  Bit maps of a record, a journey and a journey's point: the bits that must be 1, together, and those that may be.
   Record_Map : constant := 7;
   Record_Points : constant := 8;
   Record_Zones : constant := 16;
   Journey_Map : constant := 26;
   Journey_Operational : constant := 1;
   Journey_Atots : constant := 4;
   Point_Map : constant := 3;
   Point_Alignment : constant := 4;
   Point_Stopping : constant := 8;
   Point_Stop : constant := 16;
   Point_Skipped : constant := 32;
   Point_End : constant := 64;
   Point_Held : constant := 128;

   --  A journey's points and packet 62: what of the train counts at the point.
   Alignment_Front : constant := 0;
   Alignment_Middle : constant := 1;
   Alignment_Rear : constant := 2;

   --  States: no power, configuration, not available, available, ready, engaged, disengaging, failure.
   State_NP : constant := 0;
   State_CO : constant := 1;
   State_NA : constant := 2;
   State_AV : constant := 3;
   State_RE : constant := 4;
   State_EG : constant := 5;
   State_DE : constant := 6;
   State_FA : constant := 7;

   --  Bits of the conditions.
   Condition_Etcs : constant := 1;
   Condition_No_Emergency_Brake : constant := 2;
   Condition_End_Ahead : constant := 4;
   Condition_Last_Ahead : constant := 8;
   Condition_Profiles : constant := 16;
   Condition_No_Inconsistency : constant := 32;
   Condition_Located : constant := 64;
   Condition_Outside : constant := 128;
   Condition_Data_Valid : constant := 256;
   All_Conditions : constant := 511;

   --  Where a point of the journey stands.
   Standing_Unused : constant := 0;
   Standing_Targeted : constant := 1;
   Standing_Reached : constant := 2;
   Standing_Passed : constant := 3;

   --  Packets: the first byte of each.
   Packet_Traction_Brake : constant := 61;
   Packet_Timing_Point : constant := 62;
   Packet_Adhesion_System : constant := 64;
   Packet_Jp_Received : constant := 65;
   Packet_Ato_Status : constant := 68;

   --  Status in packet 62.
   Status_Passed : constant := 0;
   Status_Stopped : constant := 1;
   Status_Departed : constant := 2;
   Status_Held : constant := 3;
   Status_Hold_Revoked : constant := 4;
   Status_Skipped : constant := 5;
   Status_Revoked : constant := 6;
   Status_Trackside_Skip : constant := 7;
   Status_Trackside_Revoked : constant := 8;

   --  Status in packet 65: of a load that is accepted, and of one that 7 to 12 refuse.
   Jp_Accepted : constant := 0;
   Jp_Turned_Down : constant := 1;

   --  Why a call was refused; hollwern.h has each in words.
   Refused_Event_Form : constant := 1;
   Refused_Event_Range : constant := 2;
   Refused_No_Power : constant := 3;
   Refused_Powered : constant := 4;
   Refused_Fault : constant := 5;
   Refused_State : constant := 6;
   Refused_Book_Form : constant := 7;
   Refused_Book_Twice : constant := 8;
   Refused_Journey_Form : constant := 9;
   Refused_Segment_Twice : constant := 10;
   Refused_Points : constant := 11;
   Refused_Order : constant := 12;
   Refused_Beyond : constant := 13;
   Refused_No_Stop : constant := 14;
   Refused_Skip : constant := 15;
   Refused_Output : constant := 16;
   Refused_Packet_Length : constant := 17;
   Refused_Packet_Number : constant := 18;
   Refused_Packet_Range : constant := 19;
   Refused_Held : constant := 20;
   Refused_Reversed : constant := 21;

   type Byte_Array is array (size_t range <>) of Unsigned_8;

   --  An engine: all zero until it is made fresh. Equal calls on equal engines leave equal ones.
   type Engine is private;

   --  Where accepted: Number 0, state, request (whether AD is requested) and bytes written. Where refused: Number, and
   --  bytes written, 29 for a load that is turned down, else 0; state and request are 0.
   type Answer is record
      Accepted : C_bool;
      Number : Unsigned_8;
      State : Unsigned_8;
      Request : C_bool;
      Bytes : size_t;
   end record with Convention => C_Pass_By_Copy, Object_Size => 8 * 16;

   --  What an engine shows. Standings goes by the order of the journey in force; from Point_Count on it is 0. Of the
   --  rows of slippery rail it has the count: Show_Constraint shows each.
   type Standing_Array is array (0 .. Points_Most - 1) of Unsigned_8;
   type Shown is record
      State : Unsigned_8;
      Request : C_bool;
      Conditions : Unsigned_16;
      Point_Count : Unsigned_8;
      Standings : Standing_Array;
      Constraint_Count : Unsigned_8;
   end record with Convention => C_Pass_By_Copy, Object_Size => 8 * 70;

   --  A row of kind 15 and packet 64, a temporary constraint: a stretch of slippery rail. In the bytes the fields stand
   --  in another order: NID_C, NID_SP, category, range, start, end. Words of Ada have The_ before them. NID_C is 0 to
   --  1,023. Start and end are in cm, counted as SUBSET-126 says (7.3.6.2), each 0 to 16,777,215, start not above end;
   --  the unit compares them with each other alone. Category and range are SUBSET-140's Q_Adhesion_Category and
   --  Q_Range, both free.
   type Constraint is record
      Nidsp : Unsigned_32;
      Start : Unsigned_32;
      The_End : Unsigned_32;
      Nidc : Unsigned_16;
      Category : Unsigned_8;
      The_Range : Unsigned_8;
   end record with Convention => C_Pass_By_Copy, Object_Size => 8 * 16;

   --  Header of a packet: NID_C, NID_SP, offset in cm, speed in cm/s, NID_OPERATIONAL.
   type Header is record
      Nidc : Unsigned_16;
      Nidsp : Unsigned_32;
      Offset : Unsigned_32;
      Speed : Unsigned_16;
      Operational : Unsigned_32;
   end record with Convention => C_Pass_By_Copy, Object_Size => 8 * 20;

   --  Where accepted: Number 0, Kind the packet's number, Size its bytes, the header and the fields that the kind has;
   --  M_ATO_RTBRq, an INT16, as its unsigned 16 bits; of a packet 64 the count of its rows: Read_Constraint reads each.
   --  Where refused: Number. All else is 0.
   type Packet_Fields is record
      Accepted : C_bool;
      Number : Unsigned_8;
      Kind : Unsigned_8;
      Size : size_t;
      Header : Hollwern.Header;
      Nidc : Unsigned_16;
      Nidtp : Unsigned_32;
      Q_Eoj_Reached : Unsigned_8;
      Alignment : Unsigned_8;
      Status : Unsigned_8;
      Stopping : Unsigned_8;
      Atots : Unsigned_16;
      Date : Unsigned_16;
      Seconds : Unsigned_32;
      Counter : Unsigned_8;
      State : Unsigned_8;
      Conditions : Unsigned_16;
      M_Ato_Trabrrq : Unsigned_8;
      M_Ato_Locobrrq : Unsigned_8;
      Q_Ato_Suptb : Unsigned_8;
      M_Ato_Rtbrq : Unsigned_16;
      Constraint_Count : Unsigned_8;
   end record with Convention => C_Pass_By_Copy, Object_Size => 8 * 72;

   --  The version of the archive, to be compared with Version.
   function Linked_Version return Unsigned_32
      with Import, Convention => C, External_Name => "hollwern_version";

   --  Makes the engine fresh. To be called once before the first event.
   procedure Fresh (E : in out Engine) with Import, Convention => C, External_Name => "hollwern_fresh";

   --  Takes one event. Accepted, its packets stand at the front of Output; refused, the engine is as it was, and so is
   --  Output, but for the packet 65 of a load that is turned down.
   function Step (E : in out Engine; Event, Journey, Book : Byte_Array; Output : in out Byte_Array) return Answer;

   function Show (E : Engine) return Shown with Import, Convention => C, External_Name => "hollwern_show";

   --  Row K, from 0 on, of the latest accepted kind 15 since power off; blank where there is none.
   function Show_Constraint (E : Engine; K : size_t) return Constraint
      with Import, Convention => C, External_Name => "hollwern_show_constraint";

   --  The bytes of the packet in front: all where no packet has that number or fewer are left than it takes.
   function Front_Size (Bytes : Byte_Array) return size_t;

   --  Reads one packet, exactly.
   function Read (Bytes : Byte_Array) return Packet_Fields;

   --  Reads row K, from 0 on, of a packet 64; blank where there is none.
   function Read_Constraint (Bytes : Byte_Array; K : size_t) return Constraint;

private
   use System;
   pragma Compile_Time_Error (Address'Size /= 64 or size_t'Size /= 64, "hollwern.ads: for x86-64 Linux only");

   type Word_Array is array (0 .. Engine_Size / 4 - 1) of Unsigned_32;
   type Engine is record
      Opaque : Word_Array := (others => 0);
   end record with Convention => C, Size => 8 * Engine_Size, Alignment => 4;

   function C_Step
     (E : in out Engine; Event : Address; Event_N : size_t; Journey : Address; Journey_N : size_t;
      Book : Address; Book_N : size_t; Output : Address; Output_N : size_t) return Answer
      with Import, Convention => C, External_Name => "hollwern_step";
   function C_Front_Size (Bytes : Address; N : size_t) return size_t
      with Import, Convention => C, External_Name => "hollwern_front_size";
   function C_Read (Bytes : Address; N : size_t) return Packet_Fields
      with Import, Convention => C, External_Name => "hollwern_read";
   function C_Read_Constraint (Bytes : Address; N : size_t; K : size_t) return Constraint
      with Import, Convention => C, External_Name => "hollwern_read_constraint";

   function Step (E : in out Engine; Event, Journey, Book : Byte_Array; Output : in out Byte_Array) return Answer is
     (C_Step (E, Event'Address, Event'Length, Journey'Address, Journey'Length, Book'Address, Book'Length,
              Output'Address, Output'Length));
   function Front_Size (Bytes : Byte_Array) return size_t is (C_Front_Size (Bytes'Address, Bytes'Length));
   function Read (Bytes : Byte_Array) return Packet_Fields is (C_Read (Bytes'Address, Bytes'Length));
   function Read_Constraint (Bytes : Byte_Array; K : size_t) return Constraint is
     (C_Read_Constraint (Bytes'Address, Bytes'Length, K));
end Hollwern;
