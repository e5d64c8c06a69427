with Ada.Finalization; with Ada.Text_IO;
procedure Main is
   type Seal is record Number : Integer := 3; end record;
   type Wax is access Seal;
   type Letter is new Ada.Finalization.Controlled with record Pages : Integer := 0; Shut : Wax; end record;
   overriding procedure Adjust (Object : in out Letter);
   overriding procedure Adjust (Object : in out Letter) is
   begin
      Object.Shut := null;
   end Adjust;
   Sent : Letter;
   Kept : Letter;
begin
   Sent.Pages := 2;
   Sent.Shut := new Seal;
   Kept := Sent;
   if Kept.Shut = null then
      Ada.Text_IO.Put_Line (Integer'Image (Kept.Pages + Sent.Shut.Number));
   end if;
end Main;
