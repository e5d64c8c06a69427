with Ada.Finalization; with Ada.Text_IO; with Ada.Unchecked_Deallocation;
procedure Main is
   type Count is new Ada.Finalization.Limited_Controlled with record Number : Integer := 0; end record;
   overriding procedure Initialize (Object : in out Count);
   overriding procedure Finalize (Object : in out Count);
   type Count_Link is access Count;
   procedure Free_Count is new Ada.Unchecked_Deallocation (Count, Count_Link);
   type Chest is new Ada.Finalization.Limited_Controlled with record First : Count_Link; Second : Count_Link; end record;
   overriding procedure Finalize (Object : in out Chest);
   overriding procedure Initialize (Object : in out Count) is
   begin
      Object.Number := 1;
   end Initialize;
   overriding procedure Finalize (Object : in out Count) is
   begin
      Ada.Text_IO.Put_Line (Integer'Image (Object.Number));
   end Finalize;
   overriding procedure Finalize (Object : in out Chest) is
      Mine : Count_Link;
   begin
      Mine := Object.First;
      Object.First := null;
      if Mine /= null then
         Mine.Number := Mine.Number + 40;
      end if;
      Free_Count (Mine);
      Free_Count (Object.Second);
      Ada.Text_IO.Put_Line ("empty");
   exception
      when Constraint_Error => null;
   end Finalize;
   C : Chest;
begin
   C.First := new Count;
   C.Second := new Count;
   C.Second.Number := 7;
   Ada.Text_IO.Put_Line ("full");
end Main;
