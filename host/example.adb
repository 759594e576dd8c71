--  A small host in Ada: powers on, drives the journey of document 01's trials, and prints each answer and each packet
--  as it is read.
with Ada.Command_Line;
with Ada.Text_IO; use Ada.Text_IO;
with Hollwern; use Hollwern;
with Interfaces; use Interfaces;
with Interfaces.C; use Interfaces.C;

procedure Example is
   --  Segment 17/500, 100,000 long; stop 7001 at 40,000 with R 150; 7002 at 90,000, End of Journey.
   Journey : constant Byte_Array :=
     (16#1A#, 0, 0, 0, 0, 0, 0, 0, 1, 0, 17, 0, 0, 16#01#, 16#F4#, 2,
      16#13#, 0, 0, 16#1B#, 16#59#, 0, 16#43#, 0, 0, 16#1B#, 16#5A#, 0);
   --  The same journey, with the train held at 7001: byte 16 is that point's map.
   Held : constant Byte_Array := Journey (0 .. 15) & (Journey (16) or Point_Held) & Journey (17 .. 27);
   --  The same, with 7002 as a stop that trackside skips: byte 22 is its map.
   Skipping : constant Byte_Array :=
     Journey (0 .. 21) & (Journey (22) or Point_Stop or Point_Skipped) & Journey (23 .. 27);
   Book : constant Byte_Array :=
     (16#0F#, 0, 17, 0, 0, 16#01#, 16#F4#, 0, 16#01#, 16#86#, 16#A0#, 2,
      0, 0, 16#1B#, 16#59#, 0, 0, 16#9C#, 16#40#, 0, 150, 0, 0, 16#1B#, 16#5A#, 0, 16#01#, 16#5F#, 16#90#, 0, 0);
   --  Two rows of slippery rail on that segment: from 30,000 to 45,000, and from 60,000 to 61,000.
   Slippery : constant Byte_Array :=
     (Kind_Adhesion, 2, 0, 17, 0, 0, 16#01#, 16#F4#, 1, 2, 0, 0, 16#75#, 16#30#, 0, 0, 16#AF#, 16#C8#,
      0, 17, 0, 0, 16#01#, 16#F4#, 3, 0, 0, 0, 16#EA#, 16#60#, 0, 0, 16#EE#, 16#48#);
   --  The same, but for a byte of the second one's end, so that its start exceeds it.
   Reversed : constant Byte_Array := Slippery (0 .. 31) & 0 & Slippery (33);
   E : Engine;
   Output : Byte_Array (0 .. Bytes_Most - 1) := (others => 0);

   function "&" (Text : String; N : size_t) return String is (Text & N'Image (2 .. N'Image'Last));
   function "&" (Text : String; N : Unsigned_32) return String is (Text & size_t (N));
   function "&" (Text : String; N : Unsigned_16) return String is (Text & size_t (N));
   function "&" (Text : String; N : Unsigned_8) return String is (Text & size_t (N));
   --  An INT16 that is handed over as its unsigned 16 bits.
   function Signed (N : Unsigned_16) return String is (if N < 2**15 then "" & N else "-" & (-N));
   Symbols : constant String := "0123456789ABCDEF";
   function Hex (N : Unsigned_32; Width : Natural) return String is
     (if Width = 0 then "" else Hex (N / 16, Width - 1) & Symbols (Natural (N mod 16) + 1));

   procedure Show_Row (C : Constraint) is
   begin
      Put_Line ("  " & C.Nidc & "/" & C.Nidsp & " category " & C.Category & " range " & C.The_Range
                & " from " & C.Start & " to " & C.The_End);
   end Show_Row;

   procedure Show_Packet (Packet : Byte_Array) is
      P : constant Packet_Fields := Read (Packet);
      H : Header renames P.Header;
   begin
      if not P.Accepted then
         Put_Line ("R " & P.Number);
         return;
      end if;
      Put ("" & P.Kind & " at " & H.Nidc & "/" & H.Nidsp & " " & H.Offset & " speed " & H.Speed
           & " operational " & Hex (H.Operational, 8));
      case P.Kind is
         when Packet_Timing_Point =>
            Put_Line (": point " & P.Nidc & "/" & P.Nidtp & " qeoj " & P.Q_Eoj_Reached & " alignment " & P.Alignment
                      & " status " & P.Status & " stopping " & P.Stopping);
         when Packet_Jp_Received =>
            Put_Line (": nidc " & P.Nidc & " atots " & P.Atots & " date " & P.Date & " seconds " & P.Seconds
                      & " counter " & P.Counter & " status " & P.Status);
         when Packet_Traction_Brake =>
            Put_Line (": trabrrq " & P.M_Ato_Trabrrq & " locobrrq " & P.M_Ato_Locobrrq & " suptb " & P.Q_Ato_Suptb
                      & " rtbrq " & Signed (P.M_Ato_Rtbrq));
         when Packet_Adhesion_System =>
            Put_Line (": rows " & P.Constraint_Count);
            for K in 1 .. size_t (P.Constraint_Count) loop
               Show_Row (Read_Constraint (Packet, K - 1));
            end loop;
         when others =>
            Put_Line (": state " & P.State & " conditions " & Hex (Unsigned_32 (P.Conditions), 3));
      end case;
   end Show_Packet;

   --  What was written is for the recorder, accepted or refused.
   procedure Call (Event : Byte_Array; Lent : Byte_Array := Journey) is
      A : constant Answer := Step (E, Event, Lent, Book, Output);
      First, Next : size_t := 0;
   begin
      if A.Accepted then
         Put_Line ("A " & A.State & " " & Unsigned_8 (C_bool'Pos (A.Request)) & " " & A.Bytes);
      else
         Put_Line ("R " & A.Number & " " & A.Bytes);
      end if;
      while First < A.Bytes loop
         Next := First + Front_Size (Output (First .. A.Bytes - 1));
         for Byte of Output (First .. Next - 1) loop
            Put (Hex (Unsigned_32 (Byte), 2));
         end loop;
         New_Line;
         Show_Packet (Output (First .. Next - 1));
         First := Next;
      end loop;
   end Call;

   procedure Position (Offset : Unsigned_32; Speed : Unsigned_8) is
      function Byte (N : Unsigned_32) return Unsigned_8 is (Unsigned_8 (N mod 256));
   begin
      Call ((Kind_Position_Report, 0, 17, 0, 0, 16#01#, 16#F4#, 0, Byte (Offset / 65_536), Byte (Offset / 256),
             Byte (Offset), 0, Speed));
   end Position;

   --  A request from -100 to 100, in two's complement; with it M_ATO_TraBrRq 20, M_ATO_LocoBrRq 0, Q_ATO_SupTB 1 and
   --  M_ATO_RTBRq -2.
   procedure Traction (Request : Integer_8) is
      Byte : constant Unsigned_8 := Unsigned_8'Mod (Request);
   begin
      Call ((Kind_Traction, Byte, 20, 0, 1, 16#FF#, 16#FE#));
   end Traction;

   procedure Show is
      S : constant Shown := Show (E);
   begin
      Put ("state " & S.State & " request " & Unsigned_8 (C_bool'Pos (S.Request))
           & " conditions " & Hex (Unsigned_32 (S.Conditions), 3) & " points");
      for K in 0 .. Natural (S.Point_Count) - 1 loop
         Put (" " & S.Standings (K));
      end loop;
      New_Line;
      for K in 1 .. size_t (S.Constraint_Count) loop
         Show_Row (Show_Constraint (E, K - 1));
      end loop;
   end Show;

   --  A packet 68 whose other bytes are 0, then what the reader refuses, and how each is cut.
   procedure Show_Damaged_Packets is
      Packet : Byte_Array := (0 => Packet_Ato_Status, 1 .. 19 => 0);
   begin
      Show_Packet (Packet (0 .. 18));
      Show_Packet (Packet (0 .. 17));     --  a byte short: 17
      Put_Line ("front " & Front_Size (Packet) & " " & Front_Size (Packet (0 .. 18))
                & " " & Front_Size (Packet (0 .. 17)) & " " & Front_Size (Packet (1 .. 0)));
      Packet (18) := 8;
      Show_Packet (Packet (0 .. 18));     --  state 8: 19
      Packet (0) := 63;
      Show_Packet (Packet (0 .. 18));     --  another number: 18
      Put_Line ("front " & Front_Size (Packet));
   end Show_Damaged_Packets;
begin
   if Linked_Version /= Version then
      Put_Line (Standard_Error, "example: hollwern.ads and libhollwern.a are of different versions");
      Ada.Command_Line.Set_Exit_Status (Ada.Command_Line.Failure);
      return;
   end if;
   Fresh (E);
   Call ((1 => Kind_Power_On));
   Call ((1 => Kind_Power_On));           --  once more: refused
   Call ((1 => Kind_Load));
   Position (20_000, 0);
   Call ((Kind_Reports, 31));
   Call ((1 => Kind_Configured));         --  P8
   Call (Slippery);                       --  two rows: packet 64
   Call (Reversed);                       --  refused by 21
   Show;
   Call ((1 => Kind_Press));
   Call ((Kind_Mode, Mode_AD));           --  engaged
   Traction (20);                         --  the first request: packet 61, range 1
   Traction (-27);                        --  still range 1: no packet
   Traction (-28);                        --  range 2: packet 61
   Call ((Kind_Mode, Mode_Other));
   Position (39_900, 0);                  --  P7: the stop is reached
   Show;
   --  a byte short: turned down by 9, and recorded
   Call ((1 => Kind_Load), Journey (Journey'First .. Journey'Last - 1));
   Call ((1 => Kind_Load), Held);         --  the train is to be held: 7001 is targeted again
   Position (39_900, 0);                  --  reached again, and held: packets 62 with status 1 and 3
   Call ((1 => Kind_Press));              --  refused by 20
   Call ((1 => Kind_Load), Skipping);     --  held no longer, 7002 skipped: status 4 and 7 behind 65
   Position (39_900, 0);
   Call ((1 => Kind_Press));              --  taken
   Position (40_150, 50);                 --  a creep within R 150: still reached
   Position (40_151, 50);                 --  beyond R: departed
   Position (90_001, 50);                 --  P6: 7002 is passed
   Call ((Kind_Adhesion, 0));             --  no row: packet 64 too
   Show;
   --  7002 is skipped no longer: a packet 62 with status 8, though it is put behind
   Call ((1 => Kind_Load));
   Show_Damaged_Packets;
end Example;
