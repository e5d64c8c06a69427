with Ada.Finalization; with Ada.Text_IO; with Ada.Unchecked_Deallocation;
procedure Main is
   type Page is record Words : Integer := 0; end record;
   type Sheet is access Page;
   type Letter is new Ada.Finalization.Controlled with record Front : Sheet; end record;
   overriding procedure Adjust (Object : in out Letter);
   overriding procedure Finalize (Object : in out Letter);
   type Tally is new Ada.Finalization.Controlled with record Copies : Integer := 0; end record;
   overriding procedure Adjust (Object : in out Tally);
   type File is record Before : Tally; Kept : Letter; After : Tally; end record;
   procedure Free is new Ada.Unchecked_Deallocation (Page, Sheet);
   overriding procedure Adjust (Object : in out Letter) is
   begin
      Object.Front := new Page'(Words => Object.Front.Words + 1);
   exception
      when others => Object.Front := null;
   end Adjust;
   overriding procedure Finalize (Object : in out Letter) is
   begin
      Free (Object.Front);
   end Finalize;
   overriding procedure Adjust (Object : in out Tally) is
   begin
      Object.Copies := Object.Copies + 1;
      Ada.Text_IO.Put_Line ("counted");
   exception
      when Constraint_Error => Object.Copies := 0;
   end Adjust;
   Old : File;
begin
   Old.Kept.Front := new Page'(Words => 7);
   declare
      Recent : File := Old;
   begin
      Old := Recent;
      Ada.Text_IO.Put_Line (Integer'Image (Recent.After.Copies));
      Ada.Text_IO.Put_Line (Integer'Image (Recent.Kept.Front.Words));
   end;
   Ada.Text_IO.Put_Line (Integer'Image (Old.Before.Copies));
   Ada.Text_IO.Put_Line (Integer'Image (Old.Kept.Front.Words));
end Main;
